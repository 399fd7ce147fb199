//! The bench cases of document 01, 1 to 8.

mod common;

use common::{ask, compiled, from_hex, refused, talk, to_hex};
use second::compiler::Compiler;
use second::protocol::Session;
use second::table::Instruction;

#[test]
fn case_1_the_77_bytes() {
    let file = compiled("module M { start mode m [period = 5ms] { } }");
    let wanted = "00000049 01 014D 0000 0000 0000 0000 0000 0001 016D 01 00001388 00000000 0005
        01 00000002 00001388 06 FFFFFFFF FFFFFFFF 00 00000001 FFFFFFFF 00 00000002 FFFFFFFF
        05 00000000 FFFFFFFF";
    assert_eq!(file, from_hex(&wanted.to_lowercase()));
    assert_eq!(file.len(), 77);
}

#[test]
fn case_2_empty_text() {
    assert_eq!(refused(""), (3, 0));
}

#[test]
fn case_3_the_ends_of_int() {
    let module =
        |value: &str| format!("module M {{ const a = {value}; start mode m [period=1us] {{ }} }}");
    compiled(&module("-2147483648"));
    compiled(&module("2147483647"));
    assert_eq!(refused(&module("2147483648")), (8, 21));
    assert_eq!(refused(&module("-2147483649")), (8, 22));
}

#[test]
fn case_4_switches_between_tasks() {
    let module = |task: u32, switch: u32| {
        format!(
            "module M {{ task t {{ uses f; }} start mode m [period=4us] \
             {{ task [freq={task}] t(); mode [freq={switch}] m; }} }}"
        )
    };
    let text = module(2, 4);
    assert_eq!(refused(&text), (9, text.find("4] m;").unwrap() as u32));
    compiled(&module(4, 2));
}

/// The instants of the only mode's blocks, from the delays of its futures.
fn instants(text: &str) -> Vec<u32> {
    let mut compiler = Compiler::new();
    let table = compiler.translate(text.as_bytes()).unwrap();
    let mut instants = vec![0];
    for instruction in &table.code {
        if let Instruction::Future { delay, .. } = instruction {
            instants.push(instants.last().unwrap() + delay);
        }
    }
    instants
}

#[test]
fn case_5_blocks_at_all_slot_ends() {
    let text = "module M { sensor int s uses g; actuator int a := 0 uses f; task t { uses f; }
        start mode m [period=10ms] { task [freq=2] t(); actuator [freq=5] a := s; } }";
    assert_eq!(instants(text), [0, 2000, 4000, 5000, 6000, 8000, 10000]);
}

#[test]
fn case_6_frequency_that_does_not_divide() {
    let text = "module M { task t { uses f; } start mode m [period=7us] { task [freq=2] t(); } }";
    assert_eq!(refused(text), (9, text.find("2] t").unwrap() as u32));
}

#[test]
fn case_7_length_of_names() {
    let module =
        |length| format!("module {} {{ start mode m [period=1us] {{ }} }}", "n".repeat(length));
    compiled(&module(32));
    assert_eq!(refused(&module(33)), (4, 7));
}

const COUNT: &str = "module Dock {
    sensor int bikes uses getBikes;
    actuator int sign := 0 uses setSign;
    task count { input int n; output int o := 10; uses countBikes; }
    start mode m [period=5ms] {
        task [freq=1] count(bikes);
        actuator [freq=1] sign := count.o;
    }
}";

/// Ports: bikes, sign, n, o.
#[test]
fn case_8_the_count_runs_over() {
    let start = format!("start {} 4294965000 i7", to_hex(&compiled(COUNT)));
    let begun = [
        (&start[..], "ok 4"),
        (
            "look",
            "mode=0 count=4294965000 remain=5000 stopped=0 out=1 waiting=1 ports=i7,i0,i7,i10",
        ),
        ("next", "task 0"),
    ];
    talk(&[
        &begun[..],
        &[
            ("finish 0 i8", "ok 0"),
            ("look", "mode=0 count=4294965000 remain=5000 stopped=0 out=1 waiting=0 ports=i7,i0,i7,i10"),
            ("tick 4294967000 i1", "ok 0"),
            ("look", "mode=0 count=4294967000 remain=3000 stopped=0 out=1 waiting=0 ports=i7,i0,i7,i10"),
            ("tick 2705 i9", "refused 33"),
            ("tick 2704 i9", "ok 9"),
            ("look", "mode=0 count=2704 remain=5000 stopped=0 out=1 waiting=1 ports=i9,i8,i9,i8"),
        ],
    ]
    .concat());
    talk(&[
        &begun[..],
        &[
            ("tick 4294967000 i1", "ok 0"),
            ("tick 2704 i9", "fault 40 0"),
            ("look", "mode=0 count=4294967000 remain=3000 stopped=1 out=1 waiting=0 ports=i7,i0,i7,i10"),
        ],
    ]
    .concat());
}

#[test]
fn case_8_the_reader_gives_the_same_file_back() {
    let file = to_hex(&compiled(COUNT));
    let mut session = Session::new();
    assert_eq!(ask(&mut session, &format!("read {file}")), format!("ok {file}"));
}
