//! What several tests need: compiling, and requests to a session.
#![allow(dead_code)]

use second::compiler::{Compiler, Refusal};
use second::protocol::{hex, unhex, Session};

pub fn compile(text: &[u8]) -> Result<Vec<u8>, Refusal> {
    let mut output = vec![0; 100_000];
    let length = Compiler::new().compile(text, &mut output)?;
    output.truncate(length);
    Ok(output)
}

pub fn compiled(text: &str) -> Vec<u8> {
    compile(text.as_bytes()).unwrap_or_else(|refusal| panic!("{refusal:?}: {text}"))
}

/// The number and offset of the refusal that the text must get.
pub fn refused(text: &str) -> (u8, u32) {
    match compile(text.as_bytes()) {
        Ok(_) => panic!("accepted: {text}"),
        Err(refusal) => (refusal.number, refusal.offset),
    }
}

pub fn to_hex(bytes: &[u8]) -> String {
    let mut digits = Vec::new();
    hex(bytes, &mut digits);
    String::from_utf8(digits).unwrap()
}

pub fn from_hex(digits: &str) -> Vec<u8> {
    let mut bytes = Vec::new();
    let digits: Vec<u8> = digits.bytes().filter(|byte| !byte.is_ascii_whitespace()).collect();
    unhex(&digits, &mut bytes).expect("hex digits");
    bytes
}

pub fn ask(session: &mut Session, line: &str) -> String {
    let mut answer = Vec::new();
    session.answer(line.as_bytes(), &mut answer);
    assert_eq!(answer.pop(), Some(b'\n'));
    String::from_utf8(answer).unwrap()
}

/// A session in which each request must get its answer.
pub fn talk(lines: &[(&str, &str)]) {
    let mut session = Session::new();
    for (request, answer) in lines {
        assert_eq!(ask(&mut session, request), *answer, "{request}");
    }
}
