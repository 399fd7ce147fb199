//! The content of an E-code file in memory: what the compiler fills, the
//! writer writes, the reader returns and the machine obeys.

use crate::rooms;

/// A name as a place in the bytes the table was made from, the module's text
/// or the file: no name is ever copied before it is written.
#[derive(Clone, Copy, Debug, Default, PartialEq, Eq)]
pub struct Span {
    pub at: u32,
    pub length: u32,
}

impl Span {
    pub fn of(self, bytes: &[u8]) -> &[u8] {
        &bytes[self.at as usize..(self.at + self.length) as usize]
    }
}

#[derive(Clone, Copy, Debug, PartialEq, Eq)]
pub enum Type {
    Int,
    Boolean,
}

#[derive(Clone, Copy, Debug, PartialEq, Eq)]
pub enum Role {
    Sensor,
    Actuator,
    Input,
    Output,
}

/// Values are 32-bit words; a boolean is 0 or 1. Only the type tells them apart.
#[derive(Clone, Copy, Debug, PartialEq, Eq)]
pub struct Port {
    pub role: Role,
    pub kind: Type,
    pub initial: i32,
}

impl Port {
    /// Guards, updates and releases read sensors and outputs, nothing else.
    pub fn can_be_read(&self) -> bool {
        matches!(self.role, Role::Sensor | Role::Output)
    }
}

#[derive(Clone, Copy, Debug, PartialEq, Eq)]
pub struct Sensor {
    pub name: Span,
    pub getter: Span,
}

#[derive(Clone, Copy, Debug, PartialEq, Eq)]
pub struct Actuator {
    pub name: Span,
    pub setter: Span,
}

/// A task's ports stand in one run: its inputs, then its outputs.
#[derive(Clone, Copy, Debug, PartialEq, Eq)]
pub struct Task {
    pub name: Span,
    pub function: Span,
    pub first_port: u16,
    pub first_output: u16,
    pub inputs: u8,
    pub outputs: u8,
}

impl Task {
    pub fn input_ports(&self) -> std::ops::Range<usize> {
        let first = self.first_port as usize;
        first..first + self.inputs as usize
    }

    pub fn output_ports(&self) -> std::ops::Range<usize> {
        let first = self.input_ports().end;
        first..first + self.outputs as usize
    }

    /// Places of the outputs among all outputs of the module.
    pub fn output_places(&self) -> std::ops::Range<usize> {
        let first = self.first_output as usize;
        first..first + self.outputs as usize
    }
}

#[derive(Clone, Copy, Debug, PartialEq, Eq)]
pub enum Driver {
    Update {
        source: u16,
        actuator: u16,
    },
    /// The source ports are `count` words of the table's `sources` from `first`.
    Release {
        task: u16,
        first: u16,
        count: u8,
    },
    Terminate {
        task: u16,
    },
}

#[derive(Clone, Copy, Debug, PartialEq, Eq)]
pub enum Function {
    IsTrue,
    IsFalse,
    Less,
    Equal,
}

impl Function {
    pub fn named(name: &[u8]) -> Option<Function> {
        match name {
            b"isTrue" => Some(Function::IsTrue),
            b"isFalse" => Some(Function::IsFalse),
            b"less" => Some(Function::Less),
            b"equal" => Some(Function::Equal),
            _ => None,
        }
    }

    pub fn name(self) -> &'static [u8] {
        match self {
            Function::IsTrue => b"isTrue",
            Function::IsFalse => b"isFalse",
            Function::Less => b"less",
            Function::Equal => b"equal",
        }
    }

    pub fn arguments(self) -> usize {
        match self {
            Function::IsTrue | Function::IsFalse => 1,
            Function::Less | Function::Equal => 2,
        }
    }

    /// The type an argument must have; `equal` takes any first one.
    pub fn wants(self) -> Option<Type> {
        match self {
            Function::IsTrue | Function::IsFalse => Some(Type::Boolean),
            Function::Less => Some(Type::Int),
            Function::Equal => None,
        }
    }
}

#[derive(Clone, Copy, Debug, PartialEq, Eq)]
pub enum Operand {
    Port(u16),
    Fixed(Type, i32),
}

#[derive(Clone, Copy, Debug, PartialEq, Eq)]
pub struct Guard {
    pub function: Function,
    pub count: u8,
    pub operands: [Operand; rooms::ARGUMENTS_OF_A_GUARD],
}

/// What stands in a guard's unused operand places.
pub const NO_OPERAND: Operand = Operand::Fixed(Type::Int, 0);

#[derive(Clone, Copy, Debug, PartialEq, Eq)]
pub struct Mode {
    pub name: Span,
    pub start: bool,
    pub period: u32,
    pub begin: u32,
}

#[derive(Clone, Copy, Debug, PartialEq, Eq)]
pub enum Instruction {
    Nop(u8),
    Future { pc: u32, delay: u32 },
    Call(u32),
    Release(u32),
    If { guard: u32, otherwise: u32 },
    Jump(u32),
    Return,
    Switch(u32),
}

#[derive(Clone, Debug, Default, PartialEq, Eq)]
pub struct Table {
    pub module: Span,
    pub sensors: Vec<Sensor>,
    pub actuators: Vec<Actuator>,
    pub tasks: Vec<Task>,
    /// Sensors, actuators, then task by task inputs and outputs.
    pub ports: Vec<Port>,
    pub output_names: Vec<Span>,
    pub drivers: Vec<Driver>,
    pub sources: Vec<u16>,
    pub guards: Vec<Guard>,
    pub modes: Vec<Mode>,
    pub code: Vec<Instruction>,
}

impl Table {
    /// Empties the table but keeps its memory for the next module.
    pub fn clear(&mut self) {
        self.module = Span::default();
        self.sensors.clear();
        self.actuators.clear();
        self.tasks.clear();
        self.ports.clear();
        self.output_names.clear();
        self.drivers.clear();
        self.sources.clear();
        self.guards.clear();
        self.modes.clear();
        self.code.clear();
    }

    pub fn add_port(&mut self, role: Role, kind: Type, initial: i32) {
        self.ports.push(Port { role, kind, initial });
    }

    /// A task whose ports will follow; they are counted as they are added.
    pub fn open_task(&mut self, name: Span) {
        self.tasks.push(Task {
            name,
            function: Span::default(),
            first_port: self.ports.len() as u16,
            first_output: self.output_names.len() as u16,
            inputs: 0,
            outputs: 0,
        });
    }

    pub fn add_input(&mut self, kind: Type) {
        self.add_port(Role::Input, kind, 0);
        self.last_task().inputs += 1;
    }

    pub fn add_output(&mut self, name: Span, kind: Type, initial: i32) {
        self.add_port(Role::Output, kind, initial);
        self.output_names.push(name);
        self.last_task().outputs += 1;
    }

    pub fn last_task(&mut self) -> &mut Task {
        self.tasks.last_mut().expect("a task is open")
    }

    /// Inputs of all tasks: the ports that are nothing else.
    pub fn inputs(&self) -> usize {
        self.ports.len() - self.sensors.len() - self.actuators.len() - self.output_names.len()
    }

    pub fn sources_of(&self, first: u16, count: u8) -> &[u16] {
        &self.sources[first as usize..first as usize + count as usize]
    }
}
