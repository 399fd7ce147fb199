//! The console's line protocol. One request a line, one answer line each:
//!
//! ```text
//! compile HEXTEXT ROOM          ok HEXFILE | refused N OFFSET
//! read HEXFILE                  ok HEXREWRITTEN | refused N
//! start HEXFILE COUNT VALUES    ok N | refused N | fault N TASK
//! tick COUNT VALUES             ok N | refused N | fault N TASK | none
//! next                          task K | none | refused 31
//! finish TASK VALUES            ok 0 | refused N | none
//! look                          mode=M count=C remain=R stopped=0|1 out=W waiting=W ports=VALUES | none
//! anything else                 error
//! ```
//!
//! Decisions, for both programs:
//!
//! 1. Lines. A line ends with LF; LF is no part of it, every other byte is,
//!    CR too (so `next` CR is an `error`). Bytes behind the last LF are a line
//!    if there are any. An empty line is an `error`. A line of more than
//!    262,143 bytes is an `error`, whatever it says, and is one request.
//! 2. Words. A request is words with exactly one blank (32) between two of
//!    them. A blank more, in front or at the end too, makes an empty word and
//!    so an `error`. Commands are in lower case. A wrong number of words is an
//!    `error`.
//! 3. Byte strings. `-` is the empty one; else an even number, 2 to 200,000,
//!    of the digits 0 to 9 and a to f. All else is an `error`: odd, upper
//!    case, over 100,000 bytes.
//! 4. Numbers (ROOM, COUNT, TASK). One or more decimal digits, leading zeros
//!    as many as one likes, no sign, of a value up to 4,294,967,295. All else
//!    is an `error`. A ROOM beyond every file is a room for every file. A TASK
//!    that is no task is 34.
//! 5. Values. `-` is none of them; else values joined by commas, each `b0`,
//!    `b1`, or `i`, an optional `-` and one or more digits, leading zeros as
//!    many as one likes (`i-0` is 0). An int outside 32 bits is a value, but of
//!    wrong type: 32 or 35. All else is an `error`: `i`, `i+1`, `b2`, an empty
//!    piece, a comma in front or at the end. There is no other limit to their
//!    number than the line's; a wrong number is 32 or 35.
//! 6. The whole request is judged before anything is done: an `error` changes
//!    nothing, and it comes before `none`. `none` is the answer to tick, next,
//!    finish and look where no machine is.
//! 7. A refused start leaves no machine, not even one that was there before.
//!    One that faults leaves a stopped machine.
//! 8. Answers. Numbers are decimal without leading zeros. TASK is -1 unless
//!    the fault is 40. Words of tasks (out, waiting) are decimal. Values of
//!    look have the form of rule 5; no port at all is `-`.

mod words;

use crate::compiler::Compiler;
use crate::file::{reader, writer};
use crate::machine::{Answer, Fault, Machine, Value};
use crate::table::Table;
use std::io::Write;
use words::Words;

pub use words::{hex, unhex};

pub const LONGEST_LINE: usize = 262_143;
pub const LONGEST_BYTES: usize = 100_000;
/// Longer than any file there is.
pub const OUTPUT_ROOM: usize = 100_000;

/// What the console keeps from one request to the next.
pub struct Session {
    compiler: Compiler,
    table: Table,
    machine: Machine,
    made: bool,
    input: Vec<u8>,
    output: Vec<u8>,
    values: Vec<Value>,
}

impl Default for Session {
    fn default() -> Session {
        Session::new()
    }
}

impl Session {
    pub fn new() -> Session {
        Session {
            compiler: Compiler::new(),
            table: Table::default(),
            machine: Machine::default(),
            made: false,
            input: Vec::with_capacity(LONGEST_BYTES),
            output: vec![0; OUTPUT_ROOM],
            values: Vec::new(),
        }
    }

    /// The machine there is.
    pub fn machine(&self) -> Option<&Machine> {
        self.made.then_some(&self.machine)
    }

    /// Adds the answer to a line, and its LF, to the answers.
    pub fn answer(&mut self, line: &[u8], answers: &mut Vec<u8>) {
        if line.len() > LONGEST_LINE || self.request(line, answers).is_none() {
            say(answers, format_args!("error"));
        }
        answers.push(b'\n');
    }

    /// Nothing if the request is malformed; then nothing was done or said.
    fn request(&mut self, line: &[u8], answers: &mut Vec<u8>) -> Option<()> {
        let mut words = Words::new(line);
        match words.word()? {
            b"compile" => self.compile(words, answers),
            b"read" => self.read(words, answers),
            b"start" => self.start(words, answers),
            b"tick" => self.tick(words, answers),
            b"next" => self.next(words, answers),
            b"finish" => self.finish(words, answers),
            b"look" => self.look(words, answers),
            _ => None,
        }
    }

    fn compile(&mut self, mut words: Words, answers: &mut Vec<u8>) -> Option<()> {
        words.bytes(&mut self.input)?;
        let room = (words.number()? as usize).min(OUTPUT_ROOM);
        words.end()?;
        match self.compiler.compile(&self.input, &mut self.output[..room]) {
            Ok(length) => say_bytes(answers, &self.output[..length]),
            Err(refusal) => {
                say(answers, format_args!("refused {} {}", refusal.number, refusal.offset));
            }
        }
        Some(())
    }

    fn read(&mut self, mut words: Words, answers: &mut Vec<u8>) -> Option<()> {
        words.bytes(&mut self.input)?;
        words.end()?;
        match reader::read(&self.input, &mut self.table) {
            Ok(()) => {
                let length = writer::write(&self.table, &self.input, &mut self.output);
                let length = length.expect("there is room for every file");
                say_bytes(answers, &self.output[..length]);
            }
            Err(number) => say(answers, format_args!("refused {number}")),
        }
        Some(())
    }

    fn start(&mut self, mut words: Words, answers: &mut Vec<u8>) -> Option<()> {
        words.bytes(&mut self.input)?;
        let count = words.number()?;
        words.values(&mut self.values)?;
        words.end()?;
        let answer = self.machine.start(&self.input, count, &self.values);
        self.made = !matches!(answer, Answer::Refused(_));
        say_answer(answers, answer);
        Some(())
    }

    fn tick(&mut self, mut words: Words, answers: &mut Vec<u8>) -> Option<()> {
        let count = words.number()?;
        words.values(&mut self.values)?;
        words.end()?;
        if self.is_made(answers) {
            say_answer(answers, self.machine.tick(count, &self.values));
        }
        Some(())
    }

    fn next(&mut self, words: Words, answers: &mut Vec<u8>) -> Option<()> {
        words.end()?;
        if self.is_made(answers) {
            match self.machine.next_task() {
                Ok(Some(task)) => say(answers, format_args!("task {task}")),
                Ok(None) => say(answers, format_args!("none")),
                Err(number) => say(answers, format_args!("refused {number}")),
            }
        }
        Some(())
    }

    fn finish(&mut self, mut words: Words, answers: &mut Vec<u8>) -> Option<()> {
        let task = words.number()?;
        words.values(&mut self.values)?;
        words.end()?;
        if self.is_made(answers) {
            match self.machine.finish(task, &self.values) {
                Ok(()) => say(answers, format_args!("ok 0")),
                Err(number) => say(answers, format_args!("refused {number}")),
            }
        }
        Some(())
    }

    fn look(&mut self, words: Words, answers: &mut Vec<u8>) -> Option<()> {
        words.end()?;
        if self.is_made(answers) {
            let machine = &self.machine;
            let (mode, count, remain) = (machine.mode(), machine.count(), machine.remaining());
            let (stopped, tasks) = (machine.stopped() as u8, machine.tasks());
            say(answers, format_args!("mode={mode} count={count} remain={remain} "));
            say(answers, format_args!("stopped={stopped} out={} ", tasks.out));
            say(answers, format_args!("waiting={} ports=", tasks.waiting));
            say_values(answers, machine.ports());
        }
        Some(())
    }

    /// Whether there is a machine; where none is, that is the answer.
    fn is_made(&self, answers: &mut Vec<u8>) -> bool {
        if !self.made {
            say(answers, format_args!("none"));
        }
        self.made
    }
}

fn say(answers: &mut Vec<u8>, words: std::fmt::Arguments) {
    answers.write_fmt(words).expect("memory takes every byte");
}

fn say_bytes(answers: &mut Vec<u8>, bytes: &[u8]) {
    say(answers, format_args!("ok "));
    hex(bytes, answers);
}

fn say_answer(answers: &mut Vec<u8>, answer: Answer) {
    match answer {
        Answer::Obeyed(instructions) => say(answers, format_args!("ok {instructions}")),
        Answer::Refused(number) => say(answers, format_args!("refused {number}")),
        Answer::Fault(Fault { number, task: Some(task) }) => {
            say(answers, format_args!("fault {number} {task}"));
        }
        Answer::Fault(Fault { number, task: None }) => {
            say(answers, format_args!("fault {number} -1"));
        }
    }
}

/// Values joined by commas; the generator of requests says them so too.
pub fn say_values(answers: &mut Vec<u8>, values: impl Iterator<Item = Value>) {
    let before = answers.len();
    for value in values {
        if answers.len() > before {
            answers.push(b',');
        }
        match value {
            Value::Int(word) => say(answers, format_args!("i{word}")),
            Value::Boolean(word) => say(answers, format_args!("b{}", word as u8)),
            Value::Wide => say(answers, format_args!("i{}", 1u64 << 32)),
        }
    }
    if answers.len() == before {
        answers.push(b'-');
    }
}
