//! Hostile files: tables that the reader returns, and code that no compiler
//! wrote. Jumps go anywhere, releases have no call, returns no future.

use super::names::random_name;
use super::random::Random;
use crate::file::writer;
use crate::rooms;
use crate::table::*;

pub fn hostile_file(random: &mut Random) -> Vec<u8> {
    let mut builder = Builder { random, table: Table::default(), names: Vec::new() };
    builder.table();
    let mut file = vec![0; writer::length(&builder.table)];
    writer::write(&builder.table, &builder.names, &mut file).expect("room for all of it");
    file
}

struct Builder<'b> {
    random: &'b mut Random,
    table: Table,
    names: Vec<u8>,
}

impl Builder<'_> {
    fn table(&mut self) {
        self.table.module = self.name();
        for _ in 0..self.random.below(3) {
            let (name, getter, kind) = (self.name(), self.name(), self.kind());
            self.table.sensors.push(Sensor { name, getter });
            self.table.add_port(Role::Sensor, kind, 0);
        }
        for _ in 0..self.random.below(3) {
            let (name, setter, kind) = (self.name(), self.name(), self.kind());
            let initial = self.word(kind);
            self.table.actuators.push(Actuator { name, setter });
            self.table.add_port(Role::Actuator, kind, initial);
        }
        for _ in 0..self.random.below(5) {
            self.task();
        }
        for _ in 0..self.random.below(10) {
            self.driver();
        }
        for _ in 0..self.random.below(5) {
            self.guard();
        }
        let length = self.random.between(1, 30);
        self.modes(length);
        for _ in 0..length {
            self.instruction(length);
        }
    }

    fn task(&mut self) {
        let name = self.name();
        self.table.open_task(name);
        self.table.last_task().function = self.name();
        for _ in 0..self.random.below(3) {
            let kind = self.kind();
            self.table.add_input(kind);
        }
        for _ in 0..self.random.below(3) {
            let (name, kind) = (self.name(), self.kind());
            let initial = self.word(kind);
            self.table.add_output(name, kind, initial);
        }
    }

    /// A driver of any kind there can be; none where nothing fits.
    fn driver(&mut self) {
        let driver = match self.random.below(4) {
            0 => self.update(),
            1 => self.release(),
            _ => self.any_task().map(|task| Driver::Terminate { task }),
        };
        self.table.drivers.extend(driver);
    }

    fn update(&mut self) -> Option<Driver> {
        let actuators = self.table.sensors.len()..;
        let actuator = actuators.start + self.random.below(self.table.actuators.len().max(1));
        let kind = self.table.ports.get(actuator).filter(|port| port.role == Role::Actuator)?.kind;
        let source = self.source(kind)?;
        Some(Driver::Update { source, actuator: actuator as u16 })
    }

    fn release(&mut self) -> Option<Driver> {
        let task = self.any_task()?;
        let inputs = self.table.tasks[task as usize].input_ports();
        let types: Vec<Type> = self.table.ports[inputs].iter().map(|port| port.kind).collect();
        let sources: Option<Vec<u16>> = types.iter().map(|kind| self.source(*kind)).collect();
        let first = self.table.sources.len() as u16;
        self.table.sources.extend(sources?);
        Some(Driver::Release { task, first, count: types.len() as u8 })
    }

    fn guard(&mut self) {
        use Function::*;
        let function = self.random.pick(&[IsTrue, IsFalse, Less, Equal]);
        let kind = function.wants().unwrap_or_else(|| self.kind());
        let count = function.arguments();
        let mut operands = [NO_OPERAND; rooms::ARGUMENTS_OF_A_GUARD];
        for operand in &mut operands[..count] {
            *operand = match self.source(kind) {
                Some(port) if self.random.percent(70) => Operand::Port(port),
                _ => Operand::Fixed(kind, self.word(kind)),
            };
        }
        self.table.guards.push(Guard { function, count: count as u8, operands });
    }

    fn modes(&mut self, length: usize) {
        let count = self.random.between(1, 3);
        let start = self.random.below(count);
        for number in 0..count {
            let name = self.name();
            let begin = self.pc(length);
            let period = self.delay();
            self.table.modes.push(Mode { name, start: number == start, period, begin });
        }
    }

    /// A future and its return in a row come up often, or nothing would run.
    fn instruction(&mut self, length: usize) {
        let pc = self.pc(length);
        let instruction = match self.random.below(16) {
            0..=2 => Some(Instruction::Future { pc, delay: self.delay() }),
            3 => Some(Instruction::Return),
            4..=7 => self.number_of(self.table.drivers.len()).map(Instruction::Call),
            8..=11 => self.number_of(self.table.tasks.len()).map(Instruction::Release),
            12..=13 => {
                let guard = self.number_of(self.table.guards.len());
                guard.map(|guard| Instruction::If { guard, otherwise: pc })
            }
            14 => Some(Instruction::Jump(pc)),
            _ => self.number_of(self.table.modes.len()).map(Instruction::Switch),
        };
        let nop = Instruction::Nop(self.random.below(3) as u8);
        let after_future = matches!(self.table.code.last(), Some(Instruction::Future { .. }))
            && self.random.percent(70);
        let next = if after_future { Instruction::Return } else { instruction.unwrap_or(nop) };
        self.table.code.push(next);
    }

    fn pc(&mut self, length: usize) -> u32 {
        self.random.below(length) as u32
    }

    fn delay(&mut self) -> u32 {
        match self.random.below(10) {
            0 => 0x7FFF_FFFF,
            _ => self.random.between(1, 50) as u32,
        }
    }

    fn number_of(&mut self, count: usize) -> Option<u32> {
        (count > 0).then(|| self.random.below(count) as u32)
    }

    fn any_task(&mut self) -> Option<u16> {
        self.number_of(self.table.tasks.len()).map(|task| task as u16)
    }

    fn source(&mut self, kind: Type) -> Option<u16> {
        let fits = |port: &Port| port.can_be_read() && port.kind == kind;
        let ports = &self.table.ports;
        let fitting: Vec<usize> = (0..ports.len()).filter(|&port| fits(&ports[port])).collect();
        (!fitting.is_empty()).then(|| self.random.pick(&fitting) as u16)
    }

    fn kind(&mut self) -> Type {
        self.random.pick(&[Type::Int, Type::Boolean])
    }

    fn word(&mut self, kind: Type) -> i32 {
        match kind {
            Type::Int => self.random.int(),
            Type::Boolean => self.random.below(2) as i32,
        }
    }

    fn name(&mut self) -> Span {
        let name = random_name(self.random);
        let span = Span { at: self.names.len() as u32, length: name.len() as u32 };
        self.names.extend_from_slice(name.as_bytes());
        span
    }
}
