//! The text of a module as the parser saw it: every declaration with its names
//! and numbers at their places, in text order, nothing judged yet but 2 and 3.

use crate::table::Span;
use std::ops::Range;

#[derive(Clone, Copy, Debug)]
pub struct Name {
    pub span: Span,
    pub hash: u32,
}

/// A number's digits; the value is exact up to the largest u64 and stays there
/// above it, which is out of every range all the same.
#[derive(Clone, Copy, Debug)]
pub struct Number {
    pub at: u32,
    pub value: u64,
}

#[derive(Clone, Copy, Debug)]
pub enum Value {
    Boolean {
        at: u32,
        word: i32,
    },
    /// `at` is the place of the minus, if there is one.
    Number {
        at: u32,
        negative: bool,
        digits: Number,
    },
    Constant(Name),
}

/// `x`, or `x.y` with a second name.
#[derive(Clone, Copy, Debug)]
pub struct Reference {
    pub first: Name,
    pub second: Option<Name>,
}

#[derive(Clone, Copy, Debug)]
pub struct Constant {
    pub name: Name,
    pub value: Value,
}

#[derive(Clone, Copy, Debug)]
pub struct Sensor {
    pub kind: Span,
    pub name: Name,
    pub getter: Span,
}

#[derive(Clone, Copy, Debug)]
pub struct Actuator {
    pub kind: Span,
    pub name: Name,
    pub value: Value,
    pub setter: Span,
}

#[derive(Clone, Copy, Debug)]
pub struct Input {
    pub kind: Span,
    pub name: Name,
}

#[derive(Clone, Copy, Debug)]
pub struct Output {
    pub kind: Span,
    pub name: Name,
    pub value: Value,
}

#[derive(Clone, Debug)]
pub struct Task {
    pub name: Name,
    pub inputs: Range<usize>,
    pub outputs: Range<usize>,
    pub function: Span,
}

#[derive(Clone, Debug)]
pub struct Mode {
    /// The place of the word `start`.
    pub start: Option<u32>,
    pub name: Name,
    pub period: Number,
    pub microseconds_per_unit: u64,
    pub activities: Range<usize>,
}

#[derive(Clone, Debug)]
pub struct Guard {
    pub name: Span,
    pub arguments: Range<usize>,
}

#[derive(Clone, Debug)]
pub enum Deed {
    Invoke { task: Name, ports: Range<usize> },
    Update { actuator: Name, port: Reference },
    Switch { mode: Name },
}

#[derive(Clone, Debug)]
pub struct Activity {
    pub bracket: u32,
    pub frequency: Number,
    pub guard: Option<Guard>,
    pub deed: Deed,
}

#[derive(Debug, Default)]
pub struct Syntax {
    pub module: Span,
    pub constants: Vec<Constant>,
    pub sensors: Vec<Sensor>,
    pub actuators: Vec<Actuator>,
    pub tasks: Vec<Task>,
    pub inputs: Vec<Input>,
    pub outputs: Vec<Output>,
    pub modes: Vec<Mode>,
    pub activities: Vec<Activity>,
    /// Ports of invocations and arguments of guards.
    pub references: Vec<Reference>,
}

impl Syntax {
    pub fn clear(&mut self) {
        self.constants.clear();
        self.sensors.clear();
        self.actuators.clear();
        self.tasks.clear();
        self.inputs.clear();
        self.outputs.clear();
        self.modes.clear();
        self.activities.clear();
        self.references.clear();
    }
}
