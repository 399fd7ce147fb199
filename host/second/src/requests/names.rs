//! Names, the odd ones in favour.

use super::random::Random;

/// Words of this language that are plain names elsewhere come up often.
const WORDS: [&str; 24] = [
    "period", "freq", "ms", "us", "int", "boolean", "less", "equal", "isTrue", "isFalse", "dock",
    "bikes", "sign", "count", "lamp", "lock", "slot", "rate", "M", "m", "t", "a", "modes", "_",
];

pub fn random_name(random: &mut Random) -> String {
    match random.below(10) {
        0..=2 => random.pick(&WORDS).to_string(),
        3..=6 => format!("{}{}", random.pick(&WORDS), random.below(1000)),
        7..=8 => long_name(random.between(1, 12), random),
        _ => long_name(32, random),
    }
}

/// A name of so many bytes that can't be a keyword.
pub fn long_name(length: usize, random: &mut Random) -> String {
    const LETTERS: &[u8] = b"_ABCDEFGHIJKLMNOPQRSTUVWXYZ";
    const REST: &[u8] = b"_ABCxyz0123456789";
    let mut name = String::new();
    for place in 0..length {
        let letters = if place == 0 { LETTERS } else { REST };
        name.push(random.pick(letters) as char);
    }
    name
}
