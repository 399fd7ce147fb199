//! The compiler: text in, file out, or the one refusal document 01 prescribes.
//! Scanner and parser find 2 and 3, the checks 4 to 12, the generator 13.

mod activities;
mod checks;
mod generator;
mod names;
mod parser;
mod plan;
pub mod scanner;
mod syntax;

use crate::file::writer;
use crate::rooms;
use crate::table::Table;

#[derive(Clone, Copy, Debug, PartialEq, Eq)]
pub struct Refusal {
    pub number: u8,
    pub offset: u32,
}

/// The compiler's memory, kept from one module to the next.
pub struct Compiler {
    syntax: syntax::Syntax,
    names: names::Names,
    plan: plan::Plan,
    table: Table,
}

impl Default for Compiler {
    fn default() -> Compiler {
        Compiler::new()
    }
}

impl Compiler {
    pub fn new() -> Compiler {
        Compiler {
            syntax: syntax::Syntax::default(),
            names: names::Names::new(),
            plan: plan::Plan::default(),
            table: Table::default(),
        }
    }

    /// Writes the file to the front of `output` and returns its length, or
    /// refuses and leaves `output` untouched.
    pub fn compile(&mut self, text: &[u8], output: &mut [u8]) -> Result<usize, Refusal> {
        self.translate(text)?;
        match writer::write(&self.table, text, output) {
            Some(length) => Ok(length),
            None => Err(Refusal { number: 14, offset: text.len() as u32 }),
        }
    }

    /// The module's table; its names are places in the text.
    pub fn translate(&mut self, text: &[u8]) -> Result<&Table, Refusal> {
        if text.len() > rooms::TEXT_BYTES {
            return Err(Refusal { number: 1, offset: 0 });
        }
        parser::parse(text, &mut self.syntax)?;
        let mut checker = checks::Checker {
            text,
            syntax: &self.syntax,
            names: &mut self.names,
            table: &mut self.table,
            plan: &mut self.plan,
        };
        checker.module()?;
        match generator::generate(&self.plan, &mut self.table) {
            Ok(()) => Ok(&self.table),
            Err(generator::TooLong) => Err(Refusal { number: 13, offset: text.len() as u32 }),
        }
    }
}
