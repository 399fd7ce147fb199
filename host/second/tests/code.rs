//! Drivers, guards, ports and blocks of small modules (readings A51 to A58).

mod common;

use second::compiler::Compiler;
use second::table::Instruction::*;
use second::table::*;

fn table(text: &str) -> Table {
    Compiler::new().translate(text.as_bytes()).expect("a good module").clone()
}

const BOTH: &str = "module M { sensor int s uses g; boolean b uses g; actuator int a := 0 uses f;
    task t { input int i; output int o := 1; uses f; } task idle { uses f; }
    mode first [period=4us] {
        task [freq=2] if isTrue(b) then t(s); actuator [freq=1] if less(t.o, s) then a := t.o;
        mode [freq=1] if isFalse(b) then second; }
    start mode second [period=1us] { task [freq=1] idle(); [freq=1] t(t.o); actuator [freq=1] a := s; } }";

/// Sensors 0 and 1, actuator 2, then t's input 3 and output 4.
#[test]
fn drivers_have_updates_before_releases() {
    let table = table(BOTH);
    assert_eq!(
        table.drivers,
        [
            Driver::Terminate { task: 0 },
            Driver::Terminate { task: 1 },
            Driver::Update { source: 4, actuator: 2 },
            Driver::Release { task: 0, first: 0, count: 1 },
            Driver::Update { source: 0, actuator: 2 },
            Driver::Release { task: 1, first: 1, count: 0 },
            Driver::Release { task: 0, first: 1, count: 1 },
        ]
    );
    assert_eq!(table.sources, [0, 4]);
}

#[test]
fn guards_stand_in_text_order() {
    let functions: Vec<_> = table(BOTH).guards.iter().map(|guard| guard.function).collect();
    assert_eq!(functions, [Function::IsTrue, Function::Less, Function::IsFalse]);
}

#[test]
fn blocks_of_guarded_activities() {
    let table = table(BOTH);
    let first = [
        If { guard: 0, otherwise: 3 },
        Call(3),
        Release(0),
        Future { pc: 5, delay: 2 },
        Return,
        // The instant inside: a slot of t ends and the next one begins.
        Call(0),
        Nop(1),
        Nop(2),
        If { guard: 0, otherwise: 11 },
        Call(3),
        Release(0),
        Future { pc: 13, delay: 2 },
        Return,
        Call(0),
        Nop(1),
        If { guard: 1, otherwise: 17 },
        Call(2),
        Nop(2),
        If { guard: 2, otherwise: 20 },
        Switch(1),
        Jump(0),
    ];
    let second = [
        Call(5),
        Release(1),
        Call(6),
        Release(0),
        Future { pc: 27, delay: 1 },
        Return,
        Call(1),
        Call(0),
        Nop(1),
        Call(4),
        Nop(2),
        Jump(21),
    ];
    assert_eq!(table.code, [&first[..], &second[..]].concat());
    assert_eq!(table.modes.iter().map(|mode| mode.begin).collect::<Vec<_>>(), [0, 21]);
}

/// A56: what stands behind an unguarded switch is written all the same.
#[test]
fn dead_code_is_written() {
    let table = table("module M { start mode m [period=1us] { mode [freq=1] m; } }");
    let wanted = [Future { pc: 2, delay: 1 }, Return, Nop(1), Nop(2), Switch(0), Jump(0)];
    assert_eq!(table.code, wanted);
}

/// A54: task 0's inputs and outputs, then task 1's.
#[test]
fn ports_go_task_by_task() {
    let table = table(
        "module M { const no = false; sensor boolean s uses g; actuator int a := -7 uses f;
         task t { input boolean i; output int o := 3; boolean p := true; uses f; }
         task u { input int j; int k; output boolean q := no; uses f; }
         start mode m [period=1us] { } }",
    );
    let ports: Vec<_> =
        table.ports.iter().map(|port| (port.role, port.kind, port.initial)).collect();
    assert_eq!(
        ports,
        [
            (Role::Sensor, Type::Boolean, 0),
            (Role::Actuator, Type::Int, -7),
            (Role::Input, Type::Boolean, 0),
            (Role::Output, Type::Int, 3),
            (Role::Output, Type::Boolean, 1),
            (Role::Input, Type::Int, 0),
            (Role::Input, Type::Int, 0),
            (Role::Output, Type::Boolean, 0),
        ]
    );
}

/// A whole file by hand: every kind of record, byte by byte.
#[test]
fn every_record_of_a_file() {
    let file = common::compiled(
        "module Mo { const no = false; sensor int s uses get; actuator boolean a := no uses set;
         task t { input int i; output boolean o := true; int p := -2; uses run; }
         start mode m [period=2us] { task [freq=1] if equal(no, t.o) then t(s);
         actuator [freq=1] a := t.o; mode [freq=1] if less(s, t.p) then m; } }",
    );
    let body = "01 024d6f
        0001 0173 00 03676574
        0001 0161 01 00000000 03736574
        0001 0174 0372756e 01 00 02 016f 01 00000001 0170 00 fffffffe
        0003 05 0000  03 0003 0001  04 0000 01 0000
        0002 05657175616c 02 01 01 00000000 00 0003
             046c657373 02 00 0000 00 0004
        0001 016d 01 00000002 00000000
        000c
        04 00000000 00000003  02 00000002 ffffffff  03 00000000 ffffffff
        01 00000005 00000002  06 ffffffff ffffffff
        02 00000000 ffffffff  00 00000001 ffffffff  02 00000001 ffffffff
        00 00000002 ffffffff  04 00000001 0000000b  07 00000000 ffffffff
        05 00000000 ffffffff";
    let body = common::from_hex(body);
    let length = (body.len() as u32).to_be_bytes();
    assert_eq!(common::to_hex(&file), common::to_hex(&[&length[..], &body].concat()));
}
