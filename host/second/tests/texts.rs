//! The texts that others test with: their answers are still this program's.

mod common;

use second::compiler::Compiler;

/// A quoted string at the front, and what follows it.
fn quoted(line: &str) -> (String, &str) {
    let mut text = String::new();
    let mut letters = line.strip_prefix('"').expect("a quote").char_indices();
    while let Some((place, letter)) = letters.next() {
        match letter {
            '"' => return (text, line[place + 2..].trim_start()),
            '\\' => text.push(match letters.next().expect("an escape").1 {
                'n' => '\n',
                't' => '\t',
                'r' => '\r',
                other => other,
            }),
            other => text.push(other),
        }
    }
    panic!("no quote at the end: {line}");
}

fn number(rest: &str) -> (usize, &str) {
    let (digits, rest) = rest.split_once(' ').expect("a number and more");
    (digits.parse().expect("a number"), rest)
}

fn answer(text: &[u8], room: usize) -> String {
    let mut output = vec![0; room];
    match Compiler::new().compile(text, &mut output) {
        Err(refusal) => format!("refused {} {}", refusal.number, refusal.offset),
        Ok(length) => {
            let sum = |sum: u32, byte: &u8| sum.wrapping_mul(31).wrapping_add(*byte as u32);
            format!("ok {length} {}", output[..length].iter().fold(0, sum))
        }
    }
}

#[test]
fn answers_of_the_texts() {
    let lines = include_str!("../texts.txt").lines();
    let mut texts = 0;
    for line in lines.filter(|line| !line.is_empty() && !line.starts_with('#')) {
        let (mut text, mut rest) = quoted(line);
        if let Some(copies) = rest.strip_prefix("+ ") {
            let (count, more) = number(copies);
            let (piece, more) = quoted(more);
            text.push_str(&piece.repeat(count));
            rest = more;
        }
        let mut room = 100_000;
        if let Some(more) = rest.strip_prefix("room ") {
            (room, rest) = number(more);
        }
        assert_eq!(answer(text.as_bytes(), room), rest, "{line}");
        texts += 1;
    }
    assert!(texts >= 60);
}
