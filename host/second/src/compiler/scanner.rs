//! The scanner: white space, comments, tokens. It stands on one token at a
//! time and looks at nothing behind it, so the first byte that starts no token
//! is met only if every token left of it was allowed: of 2 and 3 the leftmost.

use crate::table::Span;

#[derive(Clone, Copy, Debug, PartialEq, Eq)]
pub enum Kind {
    Name,
    Number,
    Actuator,
    Const,
    False,
    If,
    Input,
    Mode,
    Module,
    Output,
    Sensor,
    Start,
    Task,
    Then,
    True,
    Uses,
    /// The eight keywords of 001 that stand in no rule of document 01.
    Idle,
    LeftBrace,
    RightBrace,
    LeftBracket,
    RightBracket,
    LeftParenthesis,
    RightParenthesis,
    Semicolon,
    Equals,
    Dot,
    Becomes,
    Comma,
    Minus,
    End,
    /// No token: a byte that starts none, or a block comment not closed.
    Bad,
}

#[derive(Clone, Copy, PartialEq, Eq)]
enum Class {
    Other,
    Blank,
    Letter,
    Digit,
}

const CLASSES: [Class; 256] = classes();

const fn classes() -> [Class; 256] {
    let mut classes = [Class::Other; 256];
    let mut byte = 0;
    while byte < 256 {
        classes[byte] = match byte as u8 {
            b' ' | b'\n' | b'\r' | b'\t' => Class::Blank,
            b'A'..=b'Z' | b'a'..=b'z' | b'_' => Class::Letter,
            b'0'..=b'9' => Class::Digit,
            _ => Class::Other,
        };
        byte += 1;
    }
    classes
}

fn class(byte: u8) -> Class {
    CLASSES[byte as usize]
}

/// Whether the bytes have a name's form and are no keyword.
pub fn is_name(bytes: &[u8]) -> bool {
    let Some((&first, rest)) = bytes.split_first() else {
        return false;
    };
    class(first) == Class::Letter
        && rest.iter().all(|&byte| goes_on(byte))
        && word_kind(bytes) == Kind::Name
}

fn goes_on(byte: u8) -> bool {
    matches!(class(byte), Class::Letter | Class::Digit)
}

/// What a word is: one of the 22 keywords, or a name.
fn word_kind(word: &[u8]) -> Kind {
    match word {
        b"actuator" => Kind::Actuator,
        b"const" => Kind::Const,
        b"false" => Kind::False,
        b"if" => Kind::If,
        b"input" => Kind::Input,
        b"mode" => Kind::Mode,
        b"module" => Kind::Module,
        b"output" => Kind::Output,
        b"sensor" => Kind::Sensor,
        b"start" => Kind::Start,
        b"task" => Kind::Task,
        b"then" => Kind::Then,
        b"true" => Kind::True,
        b"uses" => Kind::Uses,
        b"as" | b"asynchronous" | b"import" | b"init" | b"public" | b"state" | b"struct"
        | b"type" => Kind::Idle,
        _ => Kind::Name,
    }
}

pub struct Scanner<'t> {
    text: &'t [u8],
    /// The token the scanner stands on, from `start` to `end`.
    pub kind: Kind,
    pub start: usize,
    pub end: usize,
    /// Hash of the token's bytes, of use for names only.
    pub hash: u32,
}

impl<'t> Scanner<'t> {
    /// A scanner that stands on the first token of the text.
    pub fn new(text: &'t [u8]) -> Scanner<'t> {
        let mut scanner = Scanner { text, kind: Kind::End, start: 0, end: 0, hash: 0 };
        scanner.next();
        scanner
    }

    pub fn span(&self) -> Span {
        Span { at: self.start as u32, length: (self.end - self.start) as u32 }
    }

    pub fn bytes(&self) -> &'t [u8] {
        &self.text[self.start..self.end]
    }

    pub fn next(&mut self) {
        if let Err(open_comment) = self.skip() {
            self.start = open_comment;
            self.end = open_comment;
            self.kind = Kind::Bad;
            return;
        }
        self.start = self.end;
        let Some(&first) = self.text.get(self.start) else {
            self.kind = Kind::End;
            return;
        };
        match class(first) {
            Class::Letter => self.word(),
            Class::Digit => self.number(),
            Class::Blank | Class::Other => self.sign(first),
        }
    }

    /// Moves `end` behind white space and comments; the place of a comment
    /// that isn't closed.
    fn skip(&mut self) -> Result<(), usize> {
        while let Some(&byte) = self.text.get(self.end) {
            if class(byte) == Class::Blank {
                self.end += 1;
            } else if byte != b'/' {
                return Ok(());
            } else {
                match self.text.get(self.end + 1) {
                    Some(b'/') => self.skip_line(),
                    Some(b'*') => self.skip_block()?,
                    _ => return Ok(()),
                }
            }
        }
        Ok(())
    }

    /// Only LF ends a line comment; CR goes on with it.
    fn skip_line(&mut self) {
        let comment = &self.text[self.end..];
        let length = comment.iter().position(|&byte| byte == b'\n');
        self.end += length.unwrap_or(comment.len());
    }

    /// The star that opens a comment can't close it, so the search begins behind it.
    fn skip_block(&mut self) -> Result<(), usize> {
        let inside = &self.text[self.end + 2..];
        match inside.windows(2).position(|pair| pair == b"*/") {
            Some(length) => {
                self.end += 2 + length + 2;
                Ok(())
            }
            None => Err(self.end),
        }
    }

    fn word(&mut self) {
        let mut hash: u32 = 0x811c_9dc5;
        let mut end = self.start;
        while let Some(&byte) = self.text.get(end) {
            if !goes_on(byte) {
                break;
            }
            hash = (hash ^ byte as u32).wrapping_mul(0x0100_0193);
            end += 1;
        }
        self.end = end;
        self.hash = hash;
        self.kind = word_kind(self.bytes());
    }

    fn number(&mut self) {
        let digits = &self.text[self.start..];
        let length = digits.iter().position(|&byte| class(byte) != Class::Digit);
        self.end = self.start + length.unwrap_or(digits.len());
        self.kind = Kind::Number;
    }

    fn sign(&mut self, first: u8) {
        let mut length = 1;
        self.kind = match first {
            b'{' => Kind::LeftBrace,
            b'}' => Kind::RightBrace,
            b'[' => Kind::LeftBracket,
            b']' => Kind::RightBracket,
            b'(' => Kind::LeftParenthesis,
            b')' => Kind::RightParenthesis,
            b';' => Kind::Semicolon,
            b'=' => Kind::Equals,
            b'.' => Kind::Dot,
            b',' => Kind::Comma,
            b'-' => Kind::Minus,
            // A colon is no sign of its own: without its = no token starts there.
            b':' if self.text.get(self.start + 1) == Some(&b'=') => {
                length = 2;
                Kind::Becomes
            }
            _ => Kind::Bad,
        };
        self.end = self.start + length;
    }
}
