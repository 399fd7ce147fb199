//! Damage to the text of a good module, by roles, by tokens and by bytes, so
//! that every refusal of the compiler comes up at many places.

use super::names::{long_name, random_name};
use super::pieces::{piece, Piece, Pieces, Role};
use super::random::Random;

/// One damage or a few; mostly one, so that it isn't hidden by another.
pub fn damage(pieces: &mut Pieces, random: &mut Random) {
    let times = if random.percent(75) { 1 } else { random.between(2, 3) };
    for _ in 0..times {
        match random.below(4) {
            0 => shuffle_tokens(pieces, random),
            _ => change_meaning(pieces, random),
        }
    }
}

/// Mostly 3: a token dropped, doubled, moved or replaced.
fn shuffle_tokens(pieces: &mut Pieces, random: &mut Random) {
    if pieces.len() < 2 {
        return;
    }
    let place = random.below(pieces.len());
    match random.below(7) {
        0 => drop(pieces.remove(place)),
        1 => pieces.insert(place, pieces[place].clone()),
        2 => {
            let other = random.below(pieces.len());
            pieces.swap(place, other);
        }
        3 => pieces[place] = pieces[random.below(pieces.len())].clone(),
        4 => pieces[place] = odd_token(random),
        5 => pieces.insert(place, odd_token(random)),
        _ => pieces.truncate(place),
    }
}

fn odd_token(random: &mut Random) -> Piece {
    const TOKENS: [&str; 34] = [
        "actuator",
        "as",
        "asynchronous",
        "const",
        "false",
        "if",
        "import",
        "init",
        "input",
        "mode",
        "module",
        "output",
        "public",
        "sensor",
        "start",
        "state",
        "struct",
        "task",
        "then",
        "true",
        "type",
        "uses",
        "{",
        "}",
        "[",
        "]",
        "(",
        ")",
        ";",
        "=",
        ".",
        ":=",
        ",",
        "-",
    ];
    match random.below(4) {
        0 => piece(Role::Literal, random.below(100).to_string()),
        1 => piece(Role::Used, random_name(random)),
        _ => piece(Role::Sign, random.pick(&TOKENS)),
    }
}

/// 4 to 12: the text stays a sentence of the grammar.
fn change_meaning(pieces: &mut Pieces, random: &mut Random) {
    match random.below(12) {
        0 => lengthen_name(pieces, random),
        1 => declare_twice(pieces, random),
        2 | 3 => rename_use(pieces, random),
        4 => change_type(pieces, random),
        5 => change_guard(pieces, random),
        6 => change_value(pieces, random),
        7 => change_number(pieces, Role::Frequency, random),
        8 => change_number(pieces, Role::Period, random),
        9 => change_start(pieces, random),
        10 => change_arguments(pieces, random),
        _ => double_activity(pieces, random),
    }
}

/// A random place of the pieces that pass, if there is one.
fn place_of(
    pieces: &[Piece],
    random: &mut Random,
    passes: impl Fn(&Piece) -> bool,
) -> Option<usize> {
    let places: Vec<usize> = (0..pieces.len()).filter(|&place| passes(&pieces[place])).collect();
    (!places.is_empty()).then(|| random.pick(&places))
}

fn lengthen_name(pieces: &mut Pieces, random: &mut Random) {
    if let Some(place) = place_of(pieces, random, |piece| piece.role.is_name()) {
        let length = random.pick(&[32, 33, 33, 34, 64, 300]);
        pieces[place].text = long_name(length, random).into();
    }
}

fn declare_twice(pieces: &mut Pieces, random: &mut Random) {
    let declared = |piece: &Piece| piece.role == Role::Declared;
    let (Some(first), Some(second)) =
        (place_of(pieces, random, declared), place_of(pieces, random, declared))
    else {
        return;
    };
    pieces[second].text = pieces[first].text.clone();
}

/// A use of something else: unknown, of another kind or type, or used already.
fn rename_use(pieces: &mut Pieces, random: &mut Random) {
    let Some(place) = place_of(pieces, random, |piece| piece.role == Role::Used) else {
        return;
    };
    let role = random.pick(&[Role::Declared, Role::Declared, Role::Used, Role::ModuleName]);
    match place_of(pieces, random, |piece| piece.role == role) {
        Some(other) if random.percent(85) => pieces[place].text = pieces[other].text.clone(),
        _ => pieces[place].text = random_name(random).into(),
    }
}

fn change_type(pieces: &mut Pieces, random: &mut Random) {
    if let Some(place) = place_of(pieces, random, |piece| piece.role == Role::TypeName) {
        let other = if pieces[place].is("int") { "boolean" } else { "int" };
        let name = random.pick(&[other, other, other, "float", "Int", "M"]);
        pieces[place].text = name.into();
    }
}

fn change_guard(pieces: &mut Pieces, random: &mut Random) {
    if let Some(place) = place_of(pieces, random, |piece| piece.role == Role::GuardName) {
        let name = random.pick(&["isTrue", "isFalse", "less", "equal", "more", "int", "IsTrue"]);
        pieces[place].text = name.into();
    }
}

fn change_value(pieces: &mut Pieces, random: &mut Random) {
    let value = |piece: &Piece| matches!(piece.role, Role::Literal | Role::Truth);
    let Some(place) = place_of(pieces, random, value) else {
        return;
    };
    pieces[place] = match random.below(4) {
        0 => piece(Role::Truth, random.pick(&["true", "false"])),
        1 => piece(Role::Literal, random.below(10).to_string()),
        _ => piece(Role::Literal, edge_of_int(random)),
    };
    if pieces[place].role == Role::Literal && random.percent(30) {
        pieces.insert(place, piece(Role::Sign, "-"));
    }
}

fn edge_of_int(random: &mut Random) -> &'static str {
    random.pick(&[
        "2147483647",
        "2147483648",
        "2147483649",
        "4294967296",
        "4294967297",
        "18446744073709551616",
        "99999999999999999999999999999999999999999999",
        "00000000000000000000000000002147483648",
    ])
}

fn change_number(pieces: &mut Pieces, role: Role, random: &mut Random) {
    if let Some(place) = place_of(pieces, random, |piece| piece.role == role) {
        pieces[place].text = match random.below(6) {
            0 => "0".into(),
            1 => edge_of_int(random).into(),
            2 => random.between(60, 70).to_string().into(),
            3 => random.between(2_147_480, 2_147_490).to_string().into(),
            _ => random.between(1, 64).to_string().into(),
        };
    }
}

fn change_start(pieces: &mut Pieces, random: &mut Random) {
    let start = pieces.iter().position(|piece| piece.is("start"));
    let head = |pieces: &Pieces, place: usize| {
        pieces[place].is("mode")
            && pieces.get(place + 1).is_some_and(|piece| piece.role == Role::Declared)
    };
    let modes: Vec<usize> = (0..pieces.len()).filter(|&place| head(pieces, place)).collect();
    match start {
        Some(place) if random.percent(40) => drop(pieces.remove(place)),
        _ if !modes.is_empty() => {
            let place = random.pick(&modes);
            if place == 0 || !pieces[place - 1].is("start") {
                pieces.insert(place, piece(Role::Keyword, "start"));
            }
        }
        _ => {}
    }
}

/// One argument or port less, or one more.
fn change_arguments(pieces: &mut Pieces, random: &mut Random) {
    let Some(place) = place_of(pieces, random, |piece| piece.is("(")) else {
        return;
    };
    let more = pieces.get(place + 1).is_some_and(|piece| !piece.is(")"));
    let until = pieces[place..].iter().position(|piece| piece.is(",") || piece.is(")"));
    match until {
        Some(length) if more && random.percent(50) => {
            let comma = pieces[place + length].is(",");
            pieces.drain(place + 1..place + length + comma as usize);
        }
        _ => {
            let name = place_of(pieces, random, |piece| piece.role == Role::Used);
            let name = name.map_or("s".into(), |used| pieces[used].text.clone());
            if more {
                pieces.insert(place + 1, piece(Role::Sign, ","));
            }
            pieces.insert(place + 1, piece(Role::Used, name));
        }
    }
}

/// An activity from its `[` to its `;` once more: 10, or 11, or nothing new.
fn double_activity(pieces: &mut Pieces, random: &mut Random) {
    let begins = |pieces: &Pieces, place: usize| {
        pieces[place].is("[") && pieces.get(place + 1).is_some_and(|piece| piece.is("freq"))
    };
    let places: Vec<usize> = (0..pieces.len()).filter(|&place| begins(pieces, place)).collect();
    if places.is_empty() {
        return;
    }
    let place = random.pick(&places);
    if let Some(length) = pieces[place..].iter().position(|piece| piece.is(";")) {
        let activity: Vec<Piece> = pieces[place..=place + length].to_vec();
        pieces.splice(place..place, activity);
    }
}

/// Damage by bytes: 2, and everything that tokens broken in two give.
pub fn damage_bytes(text: &mut Vec<u8>, random: &mut Random) {
    const ODD: [&[u8]; 14] = [
        b"$", b":", b"/", b"/*", b"*/", b"//", b"'", b"\"", b"\x80", b"\0", b"\x0B", b":=", b"+",
        b"~",
    ];
    for _ in 0..random.between(1, 2) {
        let place = random.below(text.len() + 1);
        match random.below(5) {
            0 if place < text.len() => text[place] = random.byte(),
            1 if place < text.len() => drop(text.remove(place)),
            2 => text.insert(place, random.byte()),
            3 => text.truncate(place),
            _ => drop(text.splice(place..place, random.pick(&ODD).iter().copied())),
        }
    }
}
