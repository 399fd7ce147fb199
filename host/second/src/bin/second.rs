//! The second program: requests on standard input, answers on standard
//! output, in bounded memory.

use second::protocol::{Session, LONGEST_LINE};
use std::io::{self, Read, Write};

/// Answers are written when so many bytes wait, and before every wait for input.
const ANSWERS_AT_ONCE: usize = 1 << 16;

fn main() -> io::Result<()> {
    let mut console = Console {
        session: Session::new(),
        output: io::stdout().lock(),
        answers: Vec::new(),
        too_long: false,
    };
    let mut input = io::stdin().lock();
    // A longest line and its LF: one that fills this without an LF is too long.
    let mut buffer = vec![0; LONGEST_LINE + 1];
    let mut filled = 0;
    loop {
        let count = input.read(&mut buffer[filled..])?;
        if count == 0 {
            return console.end(&buffer[..filled]);
        }
        let taken = console.lines(&buffer[..filled + count], filled)?;
        buffer.copy_within(taken..filled + count, 0);
        filled = filled + count - taken;
        if filled == buffer.len() {
            console.too_long = true;
            filled = 0;
        }
    }
}

struct Console<W: Write> {
    session: Session,
    output: W,
    answers: Vec<u8>,
    /// Whether the beginning of the current line was dropped already.
    too_long: bool,
}

impl<W: Write> Console<W> {
    /// Answers all whole lines; how many bytes they were. No LF stands in the
    /// first `searched` bytes.
    fn lines(&mut self, bytes: &[u8], mut searched: usize) -> io::Result<usize> {
        let mut begin = 0;
        while let Some(length) = bytes[searched..].iter().position(|&byte| byte == b'\n') {
            self.line(&bytes[begin..searched + length])?;
            begin = searched + length + 1;
            searched = begin;
        }
        self.flush()?;
        Ok(begin)
    }

    fn line(&mut self, line: &[u8]) -> io::Result<()> {
        if self.too_long {
            self.too_long = false;
            self.answers.extend_from_slice(b"error\n");
        } else {
            self.session.answer(line, &mut self.answers);
        }
        if self.answers.len() >= ANSWERS_AT_ONCE {
            self.flush()?;
        }
        Ok(())
    }

    /// Bytes behind the last LF are a line if there are any.
    fn end(&mut self, rest: &[u8]) -> io::Result<()> {
        if self.too_long || !rest.is_empty() {
            self.line(rest)?;
        }
        self.flush()
    }

    fn flush(&mut self) -> io::Result<()> {
        self.output.write_all(&self.answers)?;
        self.answers.clear();
        self.output.flush()
    }
}
