//! The words of a request line, by the rules at the top of the protocol. Every
//! function gives nothing for a word that breaks them.

use super::LONGEST_BYTES;
use crate::machine::Value;
use crate::rooms;

pub struct Words<'l> {
    /// What is left of the line; nothing behind the last word.
    rest: Option<&'l [u8]>,
}

impl<'l> Words<'l> {
    pub fn new(line: &'l [u8]) -> Words<'l> {
        Words { rest: Some(line) }
    }

    /// The next word, up to the next blank; an empty one is none.
    pub fn word(&mut self) -> Option<&'l [u8]> {
        let rest = self.rest?;
        let word = match rest.iter().position(|&byte| byte == b' ') {
            Some(length) => {
                self.rest = Some(&rest[length + 1..]);
                &rest[..length]
            }
            None => {
                self.rest = None;
                rest
            }
        };
        (!word.is_empty()).then_some(word)
    }

    /// Whether the last word was taken.
    pub fn end(&self) -> Option<()> {
        self.rest.is_none().then_some(())
    }

    pub fn number(&mut self) -> Option<u32> {
        let value = decimal(self.word()?)?;
        u32::try_from(value).ok()
    }

    pub fn bytes(&mut self, bytes: &mut Vec<u8>) -> Option<()> {
        let word = self.word()?;
        bytes.clear();
        if word == b"-" {
            return Some(());
        }
        if word.len() > 2 * LONGEST_BYTES {
            return None;
        }
        unhex(word, bytes)
    }

    /// No machine takes more than 32 values, so one more than that is kept of
    /// a longer list: the number is wrong all the same.
    pub fn values(&mut self, values: &mut Vec<Value>) -> Option<()> {
        let word = self.word()?;
        values.clear();
        if word == b"-" {
            return Some(());
        }
        for piece in word.split(|&byte| byte == b',') {
            let value = value(piece)?;
            if values.len() <= rooms::SENSORS {
                values.push(value);
            }
        }
        Some(())
    }
}

fn value(piece: &[u8]) -> Option<Value> {
    match piece {
        b"b0" => Some(Value::Boolean(false)),
        b"b1" => Some(Value::Boolean(true)),
        [b'i', b'-', digits @ ..] => Some(int(-decimal(digits)?)),
        [b'i', digits @ ..] => Some(int(decimal(digits)?)),
        _ => None,
    }
}

fn int(value: i64) -> Value {
    match i32::try_from(value) {
        Ok(word) => Value::Int(word),
        Err(_) => Value::Wide,
    }
}

/// The value of one or more digits; all beyond 63 bits count as the largest,
/// which is out of every range.
fn decimal(digits: &[u8]) -> Option<i64> {
    if digits.is_empty() {
        return None;
    }
    let mut value: i64 = 0;
    for &digit in digits {
        if !digit.is_ascii_digit() {
            return None;
        }
        value = value.saturating_mul(10).saturating_add((digit - b'0') as i64);
    }
    Some(value)
}

const DIGITS: &[u8; 16] = b"0123456789abcdef";

/// Adds the bytes in hex; `-` for none.
pub fn hex(bytes: &[u8], answers: &mut Vec<u8>) {
    if bytes.is_empty() {
        answers.push(b'-');
    }
    answers.reserve(2 * bytes.len());
    for &byte in bytes {
        let digits = [DIGITS[byte as usize >> 4], DIGITS[byte as usize & 15]];
        answers.extend_from_slice(&digits);
    }
}

/// Adds the bytes that the digits say.
pub fn unhex(digits: &[u8], bytes: &mut Vec<u8>) -> Option<()> {
    if digits.is_empty() || !digits.len().is_multiple_of(2) {
        return None;
    }
    let mut sound = true;
    bytes.extend(digits.chunks_exact(2).map(|pair| {
        let (high, low) = (NIBBLES[pair[0] as usize], NIBBLES[pair[1] as usize]);
        sound &= high < 16 && low < 16;
        high << 4 | low
    }));
    sound.then_some(())
}

/// The value of each digit; 255 for a byte that is none.
const NIBBLES: [u8; 256] = {
    let mut nibbles = [255; 256];
    let mut value = 0;
    while value < DIGITS.len() {
        nibbles[DIGITS[value] as usize] = value as u8;
        value += 1;
    }
    nibbles
};
