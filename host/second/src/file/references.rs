//! What 24 is about: every number that names something names something there
//! is, of the right kind and type, and exactly one mode is the start mode.
//! Nothing else is asked of a file; its code may be as wild as it likes.

use crate::table::{Driver, Guard, Instruction, Operand, Role, Table, Type};

pub fn sound(table: &Table) -> bool {
    table.drivers.iter().all(|driver| driver_sound(table, driver))
        && table.guards.iter().all(|guard| guard_sound(table, guard))
        && table.modes.iter().all(|mode| within(mode.begin, table.code.len()))
        && table.code.iter().all(|instruction| instruction_sound(table, instruction))
        && table.modes.iter().filter(|mode| mode.start).count() == 1
}

fn driver_sound(table: &Table, driver: &Driver) -> bool {
    match *driver {
        Driver::Update { source, actuator } => {
            let target = table.ports.get(actuator as usize);
            target.is_some_and(|target| {
                target.role == Role::Actuator && source_type(table, source) == Some(target.kind)
            })
        }
        Driver::Release { task, first, count } => {
            release_sound(table, task, table.sources_of(first, count))
        }
        Driver::Terminate { task } => within(task as u32, table.tasks.len()),
    }
}

fn release_sound(table: &Table, task: u16, sources: &[u16]) -> bool {
    let Some(task) = table.tasks.get(task as usize) else {
        return false;
    };
    let inputs = &table.ports[task.input_ports()];
    inputs.len() == sources.len()
        && inputs
            .iter()
            .zip(sources)
            .all(|(input, source)| source_type(table, *source) == Some(input.kind))
}

/// The type of a port that can be read: a sensor or an output.
fn source_type(table: &Table, port: u16) -> Option<Type> {
    let port = table.ports.get(port as usize)?;
    port.can_be_read().then_some(port.kind)
}

fn guard_sound(table: &Table, guard: &Guard) -> bool {
    if guard.count as usize != guard.function.arguments() {
        return false;
    }
    let mut wanted = guard.function.wants();
    for operand in &guard.operands[..guard.count as usize] {
        let kind = match *operand {
            Operand::Port(port) => source_type(table, port),
            Operand::Fixed(kind, _) => Some(kind),
        };
        if kind.is_none() || wanted.is_some() && wanted != kind {
            return false;
        }
        wanted = kind;
    }
    true
}

fn instruction_sound(table: &Table, instruction: &Instruction) -> bool {
    let pc_sound = |pc| within(pc, table.code.len());
    match *instruction {
        Instruction::Nop(_) | Instruction::Return => true,
        Instruction::Future { pc, .. } => pc_sound(pc),
        Instruction::Call(driver) => within(driver, table.drivers.len()),
        Instruction::Release(task) => within(task, table.tasks.len()),
        Instruction::If { guard, otherwise } => {
            within(guard, table.guards.len()) && pc_sound(otherwise)
        }
        Instruction::Jump(pc) => pc_sound(pc),
        Instruction::Switch(mode) => within(mode, table.modes.len()),
    }
}

fn within(number: u32, count: usize) -> bool {
    (number as usize) < count
}
