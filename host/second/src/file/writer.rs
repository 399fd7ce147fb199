//! The writer: a table to the bytes of its file. The length is known before
//! the first byte is written, so a buffer too short is left untouched. It
//! trusts its table, which comes from the compiler or the reader; writing a
//! forged one (refusal 30) is no request of the console and isn't here.

use super::{tags, UNUSED, VERSION};
use crate::table::{Driver, Guard, Instruction, Operand, Span, Table, Type};

/// The file's length in front of `output`, or nothing if it doesn't fit.
/// `names` are the bytes the table's names are places in.
pub fn write(table: &Table, names: &[u8], output: &mut [u8]) -> Option<usize> {
    let length = length(table);
    let file = output.get_mut(..length)?;
    let mut writer = Writer { file, at: 0, names };
    writer.long(length as u32 - 4);
    writer.byte(VERSION);
    writer.table(table);
    Some(length)
}

/// The length of the table's file.
pub fn length(table: &Table) -> usize {
    let string = |name: &Span| 1 + name.length as usize;
    let sensors: usize =
        table.sensors.iter().map(|sensor| string(&sensor.name) + 1 + string(&sensor.getter)).sum();
    let actuators: usize = table
        .actuators
        .iter()
        .map(|actuator| string(&actuator.name) + 5 + string(&actuator.setter))
        .sum();
    let tasks: usize = table
        .tasks
        .iter()
        .map(|task| string(&task.name) + string(&task.function) + 2 + task.inputs as usize)
        .sum();
    let outputs: usize = table.output_names.iter().map(|name| string(name) + 5).sum();
    let drivers: usize = table.drivers.iter().map(driver_length).sum();
    let guards: usize = table.guards.iter().map(guard_length).sum();
    let modes: usize = table.modes.iter().map(|mode| string(&mode.name) + 9).sum();
    let counts = 7 * 2;
    let head = 4 + 1 + string(&table.module);
    let code = 9 * table.code.len();
    head + counts + sensors + actuators + tasks + outputs + drivers + guards + modes + code
}

fn driver_length(driver: &Driver) -> usize {
    match driver {
        Driver::Update { .. } => 5,
        Driver::Release { count, .. } => 4 + 2 * *count as usize,
        Driver::Terminate { .. } => 3,
    }
}

fn guard_length(guard: &Guard) -> usize {
    let operands = &guard.operands[..guard.count as usize];
    let arguments: usize = operands
        .iter()
        .map(|operand| match operand {
            Operand::Port(_) => 3,
            Operand::Fixed(..) => 6,
        })
        .sum();
    1 + guard.function.name().len() + 1 + arguments
}

struct Writer<'w> {
    file: &'w mut [u8],
    at: usize,
    names: &'w [u8],
}

impl Writer<'_> {
    fn table(&mut self, table: &Table) {
        self.name(table.module);
        self.sensors(table);
        self.actuators(table);
        self.tasks(table);
        self.drivers(table);
        self.guards(table);
        self.modes(table);
        self.code(table);
    }

    fn sensors(&mut self, table: &Table) {
        self.count(table.sensors.len());
        for (sensor, port) in table.sensors.iter().zip(&table.ports) {
            self.name(sensor.name);
            self.kind(port.kind);
            self.name(sensor.getter);
        }
    }

    fn actuators(&mut self, table: &Table) {
        self.count(table.actuators.len());
        let ports = &table.ports[table.sensors.len()..];
        for (actuator, port) in table.actuators.iter().zip(ports) {
            self.name(actuator.name);
            self.kind(port.kind);
            self.long(port.initial as u32);
            self.name(actuator.setter);
        }
    }

    fn tasks(&mut self, table: &Table) {
        self.count(table.tasks.len());
        for task in &table.tasks {
            self.name(task.name);
            self.name(task.function);
            self.byte(task.inputs);
            for input in &table.ports[task.input_ports()] {
                self.kind(input.kind);
            }
            self.byte(task.outputs);
            let outputs = &table.ports[task.output_ports()];
            for (output, name) in outputs.iter().zip(&table.output_names[task.output_places()]) {
                self.name(*name);
                self.kind(output.kind);
                self.long(output.initial as u32);
            }
        }
    }

    fn drivers(&mut self, table: &Table) {
        self.count(table.drivers.len());
        for driver in &table.drivers {
            match *driver {
                Driver::Update { source, actuator } => {
                    self.byte(tags::UPDATE);
                    self.short(source);
                    self.short(actuator);
                }
                Driver::Release { task, first, count } => {
                    self.byte(tags::RELEASE_INPUTS);
                    self.short(task);
                    self.byte(count);
                    for source in table.sources_of(first, count) {
                        self.short(*source);
                    }
                }
                Driver::Terminate { task } => {
                    self.byte(tags::TERMINATE);
                    self.short(task);
                }
            }
        }
    }

    fn guards(&mut self, table: &Table) {
        self.count(table.guards.len());
        for guard in &table.guards {
            self.string(guard.function.name());
            self.byte(guard.count);
            for operand in &guard.operands[..guard.count as usize] {
                match *operand {
                    Operand::Port(port) => {
                        self.byte(tags::PORT);
                        self.short(port);
                    }
                    Operand::Fixed(kind, word) => {
                        self.byte(tags::FIXED);
                        self.kind(kind);
                        self.long(word as u32);
                    }
                }
            }
        }
    }

    fn modes(&mut self, table: &Table) {
        self.count(table.modes.len());
        for mode in &table.modes {
            self.name(mode.name);
            self.byte(mode.start as u8);
            self.long(mode.period);
            self.long(mode.begin);
        }
    }

    fn code(&mut self, table: &Table) {
        self.count(table.code.len());
        for instruction in &table.code {
            match *instruction {
                Instruction::Nop(marker) => self.obey(tags::NOP, marker as u32, UNUSED),
                Instruction::Future { pc, delay } => self.obey(tags::FUTURE, pc, delay),
                Instruction::Call(driver) => self.obey(tags::CALL, driver, UNUSED),
                Instruction::Release(task) => self.obey(tags::RELEASE, task, UNUSED),
                Instruction::If { guard, otherwise } => self.obey(tags::IF, guard, otherwise),
                Instruction::Jump(pc) => self.obey(tags::JUMP, pc, UNUSED),
                Instruction::Return => self.obey(tags::RETURN, UNUSED, UNUSED),
                Instruction::Switch(mode) => self.obey(tags::SWITCH, mode, UNUSED),
            }
        }
    }

    fn obey(&mut self, opcode: u8, first: u32, second: u32) {
        self.byte(opcode);
        self.long(first);
        self.long(second);
    }

    fn kind(&mut self, kind: Type) {
        self.byte(match kind {
            Type::Int => tags::INT,
            Type::Boolean => tags::BOOLEAN,
        });
    }

    fn name(&mut self, name: Span) {
        self.string(name.of(self.names));
    }

    fn string(&mut self, string: &[u8]) {
        self.byte(string.len() as u8);
        self.bytes(string);
    }

    fn count(&mut self, count: usize) {
        self.short(count as u16);
    }

    fn byte(&mut self, byte: u8) {
        self.bytes(&[byte]);
    }

    fn short(&mut self, number: u16) {
        self.bytes(&number.to_be_bytes());
    }

    fn long(&mut self, number: u32) {
        self.bytes(&number.to_be_bytes());
    }

    fn bytes(&mut self, bytes: &[u8]) {
        self.file[self.at..self.at + bytes.len()].copy_from_slice(bytes);
        self.at += bytes.len();
    }
}
