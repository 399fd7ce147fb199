//! A module's text as pieces, one for each token, so that damage can be done
//! to a frequency or a guard's name just as to a single byte.

use super::random::Random;
use std::borrow::Cow;

#[derive(Clone, Copy, Debug, PartialEq, Eq)]
pub enum Role {
    Keyword,
    Sign,
    /// `period`, `freq` and the unit.
    Attribute,
    ModuleName,
    Declared,
    Used,
    /// The name behind `uses`.
    External,
    TypeName,
    GuardName,
    Truth,
    Literal,
    Period,
    Frequency,
}

impl Role {
    pub fn is_name(self) -> bool {
        matches!(
            self,
            Role::ModuleName
                | Role::Declared
                | Role::Used
                | Role::External
                | Role::TypeName
                | Role::GuardName
        )
    }
}

#[derive(Clone, Debug)]
pub struct Piece {
    /// Most pieces are keywords and signs, which need no memory of their own.
    pub text: Cow<'static, str>,
    pub role: Role,
}

impl Piece {
    pub fn is(&self, text: &str) -> bool {
        self.text == text
    }
}

pub type Pieces = Vec<Piece>;

pub fn piece(role: Role, text: impl Into<Cow<'static, str>>) -> Piece {
    Piece { text: text.into(), role }
}

/// How much stands between two pieces.
#[derive(Clone, Copy, Debug, PartialEq, Eq)]
pub enum Spacing {
    /// As little as there can be.
    Tight,
    Plain,
    /// White space of all kinds, and comments.
    Airy,
}

impl Spacing {
    pub fn any(random: &mut Random) -> Spacing {
        random.pick(&[Spacing::Tight, Spacing::Plain, Spacing::Plain, Spacing::Airy])
    }
}

pub fn join(pieces: &[Piece], spacing: Spacing, random: &mut Random) -> Vec<u8> {
    let mut text = Vec::with_capacity(8 * pieces.len());
    if spacing == Spacing::Airy {
        air(&mut text, random);
    }
    for (place, piece) in pieces.iter().enumerate() {
        if place > 0 {
            space(
                &mut text,
                pieces[place - 1].text.as_bytes(),
                piece.text.as_bytes(),
                spacing,
                random,
            );
        }
        text.extend_from_slice(piece.text.as_bytes());
    }
    if spacing == Spacing::Airy {
        air(&mut text, random);
        if random.percent(10) {
            text.extend_from_slice(b"// no line feed behind this");
        }
    }
    text
}

fn space(text: &mut Vec<u8>, left: &[u8], right: &[u8], spacing: Spacing, random: &mut Random) {
    let needed = would_merge(left, right);
    match spacing {
        Spacing::Tight if needed => text.push(b' '),
        Spacing::Tight => {}
        Spacing::Plain => text.push(if matches!(left, b";" | b"{" | b"}") { b'\n' } else { b' ' }),
        Spacing::Airy => {
            let before = text.len();
            if random.percent(40) {
                air(text, random);
            }
            if needed && text.len() == before {
                text.push(random.pick(b" \n\r\t"));
            }
        }
    }
}

/// Two words in a row would be one; only a name right behind a number isn't.
fn would_merge(left: &[u8], right: &[u8]) -> bool {
    let word =
        |byte: Option<&u8>| byte.is_some_and(|&byte| byte.is_ascii_alphanumeric() || byte == b'_');
    let number = left.iter().all(|byte| byte.is_ascii_digit());
    let digit = right.first().is_some_and(|byte| byte.is_ascii_digit());
    word(left.last()) && word(right.first()) && (digit || !number)
}

/// White space and comments; a line comment always has its end.
fn air(text: &mut Vec<u8>, random: &mut Random) {
    for _ in 0..random.between(1, 3) {
        match random.below(6) {
            0 => line_comment(text, random),
            1 => block_comment(text, random),
            _ => text.push(random.pick(b" \n\r\t")),
        }
    }
}

const INSIDE: [&[u8]; 12] =
    [b"note", b"*", b"//", b"/*", b"{", b"'", b"\r", b"\t", b"\xE4", b"\0", b"module", b" "];

fn line_comment(text: &mut Vec<u8>, random: &mut Random) {
    text.extend_from_slice(b"//");
    for _ in 0..random.below(4) {
        text.extend_from_slice(random.pick(&INSIDE));
    }
    text.push(b'\n');
}

fn block_comment(text: &mut Vec<u8>, random: &mut Random) {
    text.extend_from_slice(b"/*");
    for _ in 0..random.below(4) {
        // A slash here could close the comment too early.
        let inside = random.pick(&INSIDE);
        text.extend_from_slice(inside);
        if inside.last() == Some(&b'*') {
            text.push(b' ');
        }
    }
    text.extend_from_slice(b"*/");
}
