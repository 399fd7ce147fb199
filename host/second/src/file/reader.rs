//! The reader: the bytes of a file to its table, or one number. 20 and 21 for
//! the frame; then 22 and 23 in file order, each field judged as soon as its
//! own bytes are there; 24 only in a file whose fields are all sound.

use super::references;
use super::{tags, UNUSED, VERSION};
use crate::compiler::scanner;
use crate::rooms;
use crate::table::*;

const LENGTH_WRONG: u8 = 20;
const VERSION_WRONG: u8 = 21;
/// Bytes missing or left over, or a count over the room.
const CUT: u8 = 22;
const BAD_FIELD: u8 = 23;
const BAD_REFERENCE: u8 = 24;

type Read<T> = Result<T, u8>;

/// Fills the table, whose names are then places in the file; a refusal leaves
/// it empty.
pub fn read(file: &[u8], table: &mut Table) -> Read<()> {
    table.clear();
    let answer = frame(file).and_then(|()| fill(file, table));
    if answer.is_err() {
        table.clear();
    }
    answer
}

fn frame(file: &[u8]) -> Read<()> {
    let (Some(length), Some(version)) = (file.first_chunk::<4>(), file.get(4)) else {
        return Err(LENGTH_WRONG);
    };
    if u32::from_be_bytes(*length) as usize != file.len() - 4 {
        return Err(LENGTH_WRONG);
    }
    if *version != VERSION {
        return Err(VERSION_WRONG);
    }
    Ok(())
}

fn fill(file: &[u8], table: &mut Table) -> Read<()> {
    let mut reader = Reader { file, at: 5, table, guards_known: true };
    reader.table()?;
    if reader.at != file.len() {
        return Err(CUT);
    }
    let guards_known = reader.guards_known;
    if guards_known && references::sound(table) {
        Ok(())
    } else {
        Err(BAD_REFERENCE)
    }
}

struct Reader<'r> {
    file: &'r [u8],
    at: usize,
    table: &'r mut Table,
    /// Whether every guard's function is one of the four; a good name that
    /// is none of them is 24 and must wait for the fields behind it.
    guards_known: bool,
}

impl Reader<'_> {
    fn table(&mut self) -> Read<()> {
        self.table.module = self.name()?;
        self.sensors()?;
        self.actuators()?;
        self.tasks()?;
        self.drivers()?;
        self.guards()?;
        self.modes()?;
        self.code()
    }

    fn sensors(&mut self) -> Read<()> {
        for _ in 0..self.count(rooms::SENSORS)? {
            let name = self.name()?;
            let kind = self.kind()?;
            let getter = self.name()?;
            self.table.sensors.push(Sensor { name, getter });
            self.table.add_port(Role::Sensor, kind, 0);
        }
        Ok(())
    }

    fn actuators(&mut self) -> Read<()> {
        for _ in 0..self.count(rooms::ACTUATORS)? {
            let name = self.name()?;
            let kind = self.kind()?;
            let initial = self.value(kind)?;
            let setter = self.name()?;
            self.table.actuators.push(Actuator { name, setter });
            self.table.add_port(Role::Actuator, kind, initial);
        }
        Ok(())
    }

    fn tasks(&mut self) -> Read<()> {
        for _ in 0..self.count(rooms::TASKS)? {
            let name = self.name()?;
            self.table.open_task(name);
            self.table.last_task().function = self.name()?;
            self.inputs()?;
            self.outputs()?;
        }
        Ok(())
    }

    /// The room in all is judged at the count that passes it.
    fn inputs(&mut self) -> Read<()> {
        let left = rooms::INPUTS - self.table.inputs();
        for _ in 0..self.short_count(rooms::INPUTS_OF_A_TASK.min(left))? {
            let kind = self.kind()?;
            self.table.add_input(kind);
        }
        Ok(())
    }

    fn outputs(&mut self) -> Read<()> {
        let left = rooms::OUTPUTS - self.table.output_names.len();
        for _ in 0..self.short_count(rooms::OUTPUTS_OF_A_TASK.min(left))? {
            let name = self.name()?;
            let kind = self.kind()?;
            let initial = self.value(kind)?;
            self.table.add_output(name, kind, initial);
        }
        Ok(())
    }

    fn drivers(&mut self) -> Read<()> {
        for _ in 0..self.count(rooms::DRIVERS)? {
            let driver = match self.byte()? {
                tags::UPDATE => Driver::Update { source: self.short()?, actuator: self.short()? },
                tags::RELEASE_INPUTS => self.release()?,
                tags::TERMINATE => Driver::Terminate { task: self.short()? },
                _ => return Err(BAD_FIELD),
            };
            self.table.drivers.push(driver);
        }
        Ok(())
    }

    /// No task has more than 8 inputs, so a longer list of sources is over
    /// the room whatever its task has.
    fn release(&mut self) -> Read<Driver> {
        let task = self.short()?;
        let count = self.short_count(rooms::INPUTS_OF_A_TASK)?;
        let first = self.table.sources.len() as u16;
        for _ in 0..count {
            let source = self.short()?;
            self.table.sources.push(source);
        }
        Ok(Driver::Release { task, first, count })
    }

    fn guards(&mut self) -> Read<()> {
        for _ in 0..self.count(rooms::GUARDS)? {
            let name = self.name()?;
            let function = Function::named(name.of(self.file));
            self.guards_known &= function.is_some();
            let count = self.short_count(rooms::ARGUMENTS_OF_A_GUARD)?;
            let mut operands = [NO_OPERAND; rooms::ARGUMENTS_OF_A_GUARD];
            for operand in &mut operands[..count as usize] {
                *operand = self.operand()?;
            }
            // Any function will do for an unknown one: its table is never returned.
            let function = function.unwrap_or(Function::IsTrue);
            self.table.guards.push(Guard { function, count, operands });
        }
        Ok(())
    }

    fn operand(&mut self) -> Read<Operand> {
        match self.byte()? {
            tags::PORT => Ok(Operand::Port(self.short()?)),
            tags::FIXED => {
                let kind = self.kind()?;
                Ok(Operand::Fixed(kind, self.value(kind)?))
            }
            _ => Err(BAD_FIELD),
        }
    }

    fn modes(&mut self) -> Read<()> {
        for _ in 0..self.count(rooms::MODES)? {
            let name = self.name()?;
            let start = self.flag()?;
            let period = self.time()?;
            let begin = self.long()?;
            self.table.modes.push(Mode { name, start, period, begin });
        }
        Ok(())
    }

    fn code(&mut self) -> Read<()> {
        for _ in 0..self.count(rooms::CODE)? {
            let instruction = self.instruction()?;
            self.table.code.push(instruction);
        }
        Ok(())
    }

    fn instruction(&mut self) -> Read<Instruction> {
        match self.byte()? {
            tags::NOP => {
                let marker = self.marker()?;
                self.alone(Instruction::Nop(marker))
            }
            tags::FUTURE => Ok(Instruction::Future { pc: self.long()?, delay: self.time()? }),
            tags::CALL => {
                let driver = self.long()?;
                self.alone(Instruction::Call(driver))
            }
            tags::RELEASE => {
                let task = self.long()?;
                self.alone(Instruction::Release(task))
            }
            tags::IF => Ok(Instruction::If { guard: self.long()?, otherwise: self.long()? }),
            tags::JUMP => {
                let pc = self.long()?;
                self.alone(Instruction::Jump(pc))
            }
            tags::RETURN => {
                self.unused()?;
                self.alone(Instruction::Return)
            }
            tags::SWITCH => {
                let mode = self.long()?;
                self.alone(Instruction::Switch(mode))
            }
            _ => Err(BAD_FIELD),
        }
    }

    /// The instruction, if the second argument is the unused one.
    fn alone(&mut self, instruction: Instruction) -> Read<Instruction> {
        self.unused()?;
        Ok(instruction)
    }

    fn unused(&mut self) -> Read<()> {
        judge(self.long()? == UNUSED)
    }

    fn marker(&mut self) -> Read<u8> {
        let marker = self.long()?;
        judge(marker <= 2)?;
        Ok(marker as u8)
    }

    /// A period or a delay; read as signed or not, the top bit is out of range.
    fn time(&mut self) -> Read<u32> {
        let time = self.long()?;
        judge((1..=rooms::TIME).contains(&(time as u64)))?;
        Ok(time)
    }

    fn flag(&mut self) -> Read<bool> {
        let flag = self.byte()?;
        judge(flag <= 1)?;
        Ok(flag == 1)
    }

    fn kind(&mut self) -> Read<Type> {
        match self.byte()? {
            tags::INT => Ok(Type::Int),
            tags::BOOLEAN => Ok(Type::Boolean),
            _ => Err(BAD_FIELD),
        }
    }

    fn value(&mut self, kind: Type) -> Read<i32> {
        let word = self.long()?;
        judge(kind == Type::Int || word <= 1)?;
        Ok(word as i32)
    }

    /// Every string of the file is a name. Its length is judged before its
    /// bytes are looked for, and a keyword is no name.
    fn name(&mut self) -> Read<Span> {
        let length = self.byte()?;
        judge((1..=rooms::NAME_BYTES).contains(&(length as usize)))?;
        let name = Span { at: self.at as u32, length: length as u32 };
        judge(scanner::is_name(self.take(length as usize)?))?;
        Ok(name)
    }

    fn count(&mut self, room: usize) -> Read<u16> {
        let count = self.short()?;
        if count as usize <= room {
            Ok(count)
        } else {
            Err(CUT)
        }
    }

    /// A count inside a record.
    fn short_count(&mut self, room: usize) -> Read<u8> {
        let count = self.byte()?;
        if count as usize <= room {
            Ok(count)
        } else {
            Err(CUT)
        }
    }

    fn byte(&mut self) -> Read<u8> {
        Ok(self.take(1)?[0])
    }

    fn short(&mut self) -> Read<u16> {
        let bytes = self.take(2)?;
        Ok(u16::from_be_bytes([bytes[0], bytes[1]]))
    }

    fn long(&mut self) -> Read<u32> {
        let bytes = self.take(4)?;
        Ok(u32::from_be_bytes([bytes[0], bytes[1], bytes[2], bytes[3]]))
    }

    fn take(&mut self, length: usize) -> Read<&[u8]> {
        let bytes = self.file.get(self.at..self.at + length).ok_or(CUT)?;
        self.at += length;
        Ok(bytes)
    }
}

fn judge(sound: bool) -> Read<()> {
    if sound {
        Ok(())
    } else {
        Err(BAD_FIELD)
    }
}
