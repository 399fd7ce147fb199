//! Texts for compile requests, and the rooms they are compiled into.

use super::damage::{damage, damage_bytes};
use super::modules::module;
use super::pieces::{join, Spacing};
use super::random::Random;
use super::shape::Shape;
use crate::compiler::Compiler;
use crate::rooms;

/// A good module, of a small shape for the most part.
pub fn good_text(random: &mut Random) -> Vec<u8> {
    let shape = match random.below(10) {
        0 => Shape::large(random),
        1 | 2 => Shape::lively(random),
        _ => Shape::small(random),
    };
    text_of(&shape, random)
}

pub fn text_of(shape: &Shape, random: &mut Random) -> Vec<u8> {
    let pieces = module(shape, random);
    let spacing = Spacing::any(random);
    join(&pieces, spacing, random)
}

pub fn text(random: &mut Random) -> Vec<u8> {
    match random.below(40) {
        0..=8 => good_text(random),
        9..=25 => damaged_text(random),
        26..=31 => {
            let mut text = good_text(random);
            damage_bytes(&mut text, random);
            text
        }
        32..=36 => edge_text(random),
        37 => padded_text(random),
        38 => long_code(random),
        _ => odd_text(random),
    }
}

fn damaged_text(random: &mut Random) -> Vec<u8> {
    let mut pieces = module(&Shape::small(random), random);
    damage(&mut pieces, random);
    let spacing = Spacing::any(random);
    join(&pieces, spacing, random)
}

/// A room full or over by one, sometimes with damage as well: the two meet at
/// one name, or one hides the other.
fn edge_text(random: &mut Random) -> Vec<u8> {
    let mut pieces = module(&Shape::edge(random), random);
    if random.percent(25) {
        damage(&mut pieces, random);
    }
    join(&pieces, Spacing::Tight, random)
}

/// A text filled up to the longest there is, or beyond it.
fn padded_text(random: &mut Random) -> Vec<u8> {
    let mut text = good_text(random);
    let over = random.pick(&[0, 0, 1, 1, 2, 700]);
    let length = rooms::TEXT_BYTES + over;
    let filler = random.pick(b" \nx$\t");
    if random.percent(30) {
        text.extend_from_slice(b"//");
    }
    while text.len() < length {
        text.push(filler);
    }
    text
}

/// Code that ends around the room's end, or modes of frequencies that have no
/// common slots.
fn long_code(random: &mut Random) -> Vec<u8> {
    if random.percent(50) {
        return coprime_frequencies(random);
    }
    let mut left = rooms::CODE + random.below(4) - 1;
    let mut text = b"module Long { start mode m [period=64us] { mode ".to_vec();
    left -= switches(&mut text, left, random.between(15, 28));
    let mut number = 0;
    while left > 0 {
        text.extend_from_slice(format!("}} mode m{number} [period=64us] {{ mode ").as_bytes());
        left = left.saturating_sub(switches(&mut text, left, 28));
        number += 1;
    }
    text.extend_from_slice(b"} }");
    text
}

/// At most so many switches of one frequency f, and a few of frequency 1. With
/// s of them a mode has f s + 4 f + 1 instructions, and 1 more for each of the
/// few. It tries to have no more than are left.
fn switches(text: &mut Vec<u8>, left: usize, most: usize) -> usize {
    let frequency = match left {
        330.. => 64,
        41.. => 8,
        _ => 1,
    };
    let empty = 4 * frequency + 1;
    let often = (left.saturating_sub(empty) / frequency).min(most);
    let size = frequency * often + empty;
    let once = left.saturating_sub(size).min(rooms::ACTIVITIES_OF_A_MODE - often);
    for _ in 0..often {
        text.extend_from_slice(format!("[freq={frequency}]m;").as_bytes());
    }
    for _ in 0..once {
        text.extend_from_slice(b"[freq=1]m;");
    }
    size + once
}

/// 64, 63, 61, 59 and 55 have a common multiple just inside the range.
fn coprime_frequencies(random: &mut Random) -> Vec<u8> {
    let mut text = b"module Coprime {sensor int s uses g;actuator ".to_vec();
    for number in 0..5 {
        text.extend_from_slice(format!("int a{number}:=0 uses f;").as_bytes());
    }
    for mode in 0..random.between(1, 8) {
        let start = if mode == 0 { "start " } else { "" };
        text.extend_from_slice(
            format!("{start}mode m{mode} [period=798114240us] {{actuator ").as_bytes(),
        );
        for number in 0..random.between(1, 5) {
            let frequency = random.pick(&[64, 63, 61, 59, 55]);
            text.extend_from_slice(format!("[freq={frequency}]a{number}:=s;").as_bytes());
        }
        text.push(b'}');
    }
    text.push(b'}');
    text
}

/// Short texts of nothing but tokens, or of nothing but bytes.
fn odd_text(random: &mut Random) -> Vec<u8> {
    const STARTS: [&[u8]; 12] = [
        b"",
        b" ",
        b"module",
        b"module M",
        b"module M {",
        b"module M { }",
        b"//",
        b"/*/",
        b"/**/",
        b"module M { start mode m [period=1us] { } }",
        b"module M { const",
        b"module M { task",
    ];
    let mut text = random.pick(&STARTS).to_vec();
    for _ in 0..random.below(5) {
        text.push(random.byte());
    }
    text
}

/// The room for a text: enough, just enough, or one byte too little.
pub fn room(text: &[u8], compiler: &mut Compiler, output: &mut [u8], random: &mut Random) -> usize {
    let choice = random.below(10);
    match choice {
        0..=3 => {}
        4 => return random.pick(&[0, 1, 65_536, 4_294_967_295]),
        _ => return 70_000,
    }
    match (choice, compiler.compile(text, output)) {
        (0..=1, Ok(length)) => length - 1,
        (2, Ok(length)) => length,
        (_, Ok(length)) => random.below(length + 10),
        (_, Err(_)) => 70_000,
    }
}

#[cfg(test)]
mod tests {
    use super::*;

    /// What the builder means to be good is: nothing but its length can be
    /// wrong with it.
    #[test]
    fn good_texts_are_good() {
        let mut random = Random::new(42);
        let mut compiler = Compiler::new();
        let mut accepted = 0;
        for _ in 0..5000 {
            let text = good_text(&mut random);
            match compiler.translate(&text).map(|_| ()) {
                Ok(()) => accepted += 1,
                Err(refusal) => {
                    let number = refusal.number;
                    assert!(
                        matches!(number, 1 | 13),
                        "{number}: {}",
                        String::from_utf8_lossy(&text)
                    );
                }
            }
        }
        assert!(accepted > 4800, "{accepted}");
    }
}
