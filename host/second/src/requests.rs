//! The generator of requests: seeded, endless, and bent on every refusal and
//! every fault there is. What it knows of good modules, files and machines it
//! knows from this program; both programs that are compared get the same lines.

mod damage;
mod errors;
mod fields;
mod files;
mod hostile;
mod modes;
mod modules;
mod names;
mod pieces;
mod random;
mod runs;
mod shape;
mod texts;

use crate::compiler::Compiler;
use crate::protocol::hex;
use random::Random;

#[derive(Clone, Copy, Debug, PartialEq, Eq)]
pub enum Kind {
    Compile,
    Read,
    Machine,
    All,
}

impl Kind {
    pub fn named(name: &str) -> Option<Kind> {
        match name {
            "compile" => Some(Kind::Compile),
            "read" => Some(Kind::Read),
            "machine" => Some(Kind::Machine),
            "all" => Some(Kind::All),
            _ => None,
        }
    }
}

pub struct Requests {
    kind: Kind,
    random: Random,
    compiler: Compiler,
    output: Vec<u8>,
    files: files::Files,
    runs: runs::Runs,
}

impl Requests {
    pub fn new(seed: u64, kind: Kind) -> Requests {
        Requests {
            kind,
            random: Random::new(seed),
            compiler: Compiler::new(),
            output: vec![0; 100_000],
            files: files::Files::default(),
            runs: runs::Runs::default(),
        }
    }

    /// The next line, without its LF. A few lines of every kind are malformed.
    pub fn line(&mut self) -> Vec<u8> {
        if self.random.percent(1) {
            let line = if self.random.percent(50) {
                errors::odd_line(&mut self.random)
            } else {
                let mut line = self.good_line();
                errors::damage_line(&mut line, &mut self.random);
                line
            };
            self.runs.follow(&line);
            return line;
        }
        self.good_line()
    }

    fn good_line(&mut self) -> Vec<u8> {
        match self.kind {
            Kind::Compile => self.compile(),
            Kind::Read => self.read(),
            Kind::Machine => self.runs.request(&mut self.random),
            Kind::All => match self.random.below(4) {
                0 => self.compile(),
                1 => self.read(),
                _ => self.runs.request(&mut self.random),
            },
        }
    }

    fn compile(&mut self) -> Vec<u8> {
        let text = texts::text(&mut self.random);
        let room = texts::room(&text, &mut self.compiler, &mut self.output, &mut self.random);
        let mut line = b"compile ".to_vec();
        hex(&text, &mut line);
        line.extend_from_slice(format!(" {room}").as_bytes());
        line
    }

    fn read(&mut self) -> Vec<u8> {
        let file = self.files.any(&mut self.random);
        let mut line = b"read ".to_vec();
        hex(&file, &mut line);
        line
    }
}
