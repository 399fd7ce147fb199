//! The checks: refusals 4 to 12, and the table filled on the way. They walk
//! the module from left to right, and at one place from the lowest number up,
//! so the first one broken is the leftmost; nothing behind it is judged.

use super::names::{same, Meaning, Names};
use super::plan::Plan;
use super::syntax::{Actuator, Name, Sensor, Syntax, Task, Value};
use super::Refusal;
use crate::rooms;
use crate::table::{self, Driver, Role, Span, Table, Type};

pub type Checked<T> = Result<T, Refusal>;

pub struct Checker<'c> {
    pub text: &'c [u8],
    pub syntax: &'c Syntax,
    pub names: &'c mut Names,
    pub table: &'c mut Table,
    pub plan: &'c mut Plan,
}

pub fn refuse<T>(number: u8, offset: u32) -> Checked<T> {
    Err(Refusal { number, offset })
}

impl<'c> Checker<'c> {
    pub fn module(&mut self) -> Checked<()> {
        let syntax = self.syntax;
        self.names.clear();
        self.table.clear();
        self.plan.clear();
        self.length(syntax.module)?;
        self.table.module = syntax.module;
        self.constants()?;
        for sensor in &syntax.sensors {
            self.sensor(sensor)?;
        }
        for actuator in &syntax.actuators {
            self.actuator(actuator)?;
        }
        for task in &syntax.tasks {
            self.task(task)?;
        }
        self.terminations();
        self.modes()
    }

    fn constants(&mut self) -> Checked<()> {
        for (place, constant) in self.syntax.constants.iter().enumerate() {
            self.declaration(&constant.name, place, rooms::CONSTANTS)?;
            // The value first: a constant isn't visible in its own value.
            let (kind, word) = self.value(&constant.value, None)?;
            self.declare(&constant.name, Meaning::Constant(kind, word));
        }
        Ok(())
    }

    fn sensor(&mut self, sensor: &Sensor) -> Checked<()> {
        let kind = self.kind(sensor.kind)?;
        self.declaration(&sensor.name, self.table.sensors.len(), rooms::SENSORS)?;
        self.length(sensor.getter)?;
        let port = self.table.ports.len() as u16;
        self.table.sensors.push(table::Sensor { name: sensor.name.span, getter: sensor.getter });
        self.table.add_port(Role::Sensor, kind, 0);
        self.declare(&sensor.name, Meaning::Sensor { port });
        Ok(())
    }

    fn actuator(&mut self, actuator: &Actuator) -> Checked<()> {
        let kind = self.kind(actuator.kind)?;
        self.declaration(&actuator.name, self.table.actuators.len(), rooms::ACTUATORS)?;
        let (_, initial) = self.value(&actuator.value, Some(kind))?;
        self.length(actuator.setter)?;
        let port = self.table.ports.len() as u16;
        let (name, setter) = (actuator.name.span, actuator.setter);
        self.table.actuators.push(table::Actuator { name, setter });
        self.table.add_port(Role::Actuator, kind, initial);
        self.declare(&actuator.name, Meaning::Actuator { port });
        Ok(())
    }

    fn task(&mut self, task: &Task) -> Checked<()> {
        let number = self.table.tasks.len();
        self.declaration(&task.name, number, rooms::TASKS)?;
        self.table.open_task(task.name.span);
        for place in task.inputs.clone() {
            self.input(task, place)?;
        }
        for place in task.outputs.clone() {
            self.output(task, place)?;
        }
        self.length(task.function)?;
        self.table.last_task().function = task.function;
        self.declare(&task.name, Meaning::Task(number as u16));
        Ok(())
    }

    fn input(&mut self, task: &Task, place: usize) -> Checked<()> {
        let input = &self.syntax.inputs[place];
        let kind = self.kind(input.kind)?;
        self.new_port(task, place, task.outputs.start, &input.name)?;
        self.room(&input.name, place - task.inputs.start, rooms::INPUTS_OF_A_TASK)?;
        self.room(&input.name, self.table.inputs(), rooms::INPUTS)?;
        self.table.add_input(kind);
        Ok(())
    }

    fn output(&mut self, task: &Task, place: usize) -> Checked<()> {
        let output = &self.syntax.outputs[place];
        let kind = self.kind(output.kind)?;
        self.new_port(task, task.inputs.end, place, &output.name)?;
        self.room(&output.name, place - task.outputs.start, rooms::OUTPUTS_OF_A_TASK)?;
        self.room(&output.name, self.table.output_names.len(), rooms::OUTPUTS)?;
        let (_, initial) = self.value(&output.value, Some(kind))?;
        self.table.add_output(output.name.span, kind, initial);
        Ok(())
    }

    /// A task's own name space: its inputs before `inputs_end` and its outputs
    /// before `outputs_end` are those declared so far.
    fn new_port(
        &self,
        task: &Task,
        inputs_end: usize,
        outputs_end: usize,
        name: &Name,
    ) -> Checked<()> {
        self.length(name.span)?;
        let inputs = &self.syntax.inputs[task.inputs.start..inputs_end];
        let outputs = &self.syntax.outputs[task.outputs.start..outputs_end];
        if inputs.iter().any(|input| same(self.text, &input.name, name))
            || outputs.iter().any(|output| same(self.text, &output.name, name))
        {
            return refuse(5, name.span.at);
        }
        Ok(())
    }

    /// One terminate driver for each task, invoked or not, so that its number
    /// is the task's.
    fn terminations(&mut self) {
        for task in 0..self.table.tasks.len() as u16 {
            self.table.drivers.push(Driver::Terminate { task });
        }
    }

    /// 4, 5 and 11 of a name of the module's name space; `count` such stand
    /// before it.
    pub fn declaration(&self, name: &Name, count: usize, room: usize) -> Checked<()> {
        self.length(name.span)?;
        if self.names.find(self.text, name).is_some() {
            return refuse(5, name.span.at);
        }
        self.room(name, count, room)
    }

    fn room(&self, name: &Name, count: usize, room: usize) -> Checked<()> {
        if count < room {
            Ok(())
        } else {
            refuse(11, name.span.at)
        }
    }

    pub fn declare(&mut self, name: &Name, meaning: Meaning) {
        self.names.declare(self.text, name, meaning);
    }

    /// Refusal 4, of every name of the text whatever it stands for.
    pub fn length(&self, name: Span) -> Checked<()> {
        if name.length as usize <= rooms::NAME_BYTES {
            Ok(())
        } else {
            refuse(4, name.at)
        }
    }

    /// Types are no declared names: `int` is the type even where a constant
    /// has its name.
    fn kind(&self, name: Span) -> Checked<Type> {
        self.length(name)?;
        match name.of(self.text) {
            b"int" => Ok(Type::Int),
            b"boolean" => Ok(Type::Boolean),
            _ => refuse(6, name.at),
        }
    }

    /// A value's type and word. A number out of range is an int all the same,
    /// so in a boolean's place 7 comes before 8.
    fn value(&self, value: &Value, wanted: Option<Type>) -> Checked<(Type, i32)> {
        match *value {
            Value::Boolean { at, word } => {
                self.agree(Type::Boolean, wanted, at)?;
                Ok((Type::Boolean, word))
            }
            Value::Number { at, negative, digits } => {
                self.agree(Type::Int, wanted, at)?;
                match integer(negative, digits.value) {
                    Some(word) => Ok((Type::Int, word)),
                    None => refuse(8, digits.at),
                }
            }
            Value::Constant(name) => {
                self.length(name.span)?;
                let Some(Meaning::Constant(kind, word)) = self.names.find(self.text, &name) else {
                    return refuse(6, name.span.at);
                };
                self.agree(kind, wanted, name.span.at)?;
                Ok((kind, word))
            }
        }
    }

    pub fn agree(&self, kind: Type, wanted: Option<Type>, at: u32) -> Checked<()> {
        if wanted.is_none_or(|wanted| wanted == kind) {
            Ok(())
        } else {
            refuse(7, at)
        }
    }
}

/// The number in 32 bits signed, if it fits.
fn integer(negative: bool, digits: u64) -> Option<i32> {
    let magnitude = i64::try_from(digits).ok()?;
    i32::try_from(if negative { -magnitude } else { magnitude }).ok()
}
