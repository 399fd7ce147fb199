//! The machine's calls, refusals and faults (readings A74 to A103).

mod common;

use common::{ask, compiled, to_hex};
use second::file::writer;
use second::protocol::Session;
use second::table::Instruction::{self, *};
use second::table::*;

fn started(text: &str, rest: &str) -> Session {
    let mut session = Session::new();
    let start = format!("start {} {rest}", to_hex(&compiled(text)));
    assert!(ask(&mut session, &start).starts_with("ok "));
    session
}

fn expect(session: &mut Session, lines: &[(&str, &str)]) {
    for (request, answer) in lines {
        assert_eq!(ask(session, request), *answer, "{request}");
    }
}

const TWO: &str = "module M { task t { output int o := 1; uses f; } task u { uses f; }
    start mode m [period=4us] { task [freq=2] u(); [freq=1] t(); } }";

/// A87, A88: what can be finished, and when.
#[test]
fn next_and_finish() {
    let mut session = started(TWO, "0 -");
    expect(
        &mut session,
        &[
            ("finish 0 i5", "refused 34"), // waiting
            ("finish 7 i5", "refused 34"), // no task
            ("finish 64 i5", "refused 34"),
            ("next", "task 0"),
            ("next", "task 1"),
            ("next", "none"),
            ("finish 0 b1", "refused 35"),
            ("finish 0 -", "refused 35"),
            ("finish 0 i5,i5", "refused 35"),
            ("finish 0 i2147483648", "refused 35"),
            ("finish 0 i-2147483648", "ok 0"),
            ("finish 0 i6", "refused 34"),
            ("finish 1 -", "ok 0"),
            ("look", "mode=0 count=0 remain=2 stopped=0 out=3 waiting=0 ports=i1"),
            ("tick 2 -", "ok 7"),
            ("look", "mode=0 count=2 remain=2 stopped=0 out=3 waiting=2 ports=i1"),
            ("next", "task 1"),
            ("finish 1 -", "ok 0"),
            ("tick 4 -", "ok 11"),
            ("look", "mode=0 count=4 remain=2 stopped=0 out=3 waiting=3 ports=i-2147483648"),
        ],
    );
}

/// A77: the first late task in the code's order, which is the text's.
#[test]
fn late_tasks() {
    let text = TWO.replace("[freq=2]", "[freq=1]");
    let mut session = started(&text, "10 -");
    expect(
        &mut session,
        &[
            ("tick 14 -", "fault 40 1"),
            ("tick 14 -", "refused 31"),
            ("tick 14 i1", "refused 31"),
            ("next", "refused 31"),
            ("finish 9 -", "refused 31"),
            ("look", "mode=0 count=10 remain=4 stopped=1 out=3 waiting=3 ports=i1"),
        ],
    );
    let mut session = started(&text, "10 -");
    expect(
        &mut session,
        &[
            ("next", "task 0"),
            ("next", "task 1"),
            ("finish 1 -", "ok 0"),
            ("tick 14 -", "fault 40 0"),
        ],
    );
}

/// A84, A85, A95: idle, late, and a clock that runs over.
#[test]
fn clock() {
    let text = "module M { sensor int s uses g; start mode m [period=1000us] { } }";
    let mut session = started(text, "4294967295 i1");
    expect(
        &mut session,
        &[
            ("tick 4294967295 i1", "ok 0"),
            ("tick 4294967295 b1", "refused 32"),
            ("tick 1000 b1", "refused 32"),
            ("tick 1000 i1", "refused 33"),
            ("tick 4294967294 i1", "refused 33"),
            ("tick 100 i2", "ok 0"),
            ("tick 99 i2", "refused 33"),
            ("look", "mode=0 count=100 remain=899 stopped=0 out=0 waiting=0 ports=i1"),
            ("tick 999 i3", "ok 5"),
            ("look", "mode=0 count=999 remain=1000 stopped=0 out=0 waiting=0 ports=i3"),
            ("tick 1998 i3,i4", "refused 32"),
            ("tick 1998 -", "refused 32"),
            ("tick 1999 i-9", "ok 5"),
        ],
    );
}

/// A25, A90, A93, A94: switches, their guards, and a mode that starts anew.
#[test]
fn switches() {
    let text = "module M { sensor boolean go uses g; actuator boolean a := false uses f;
        start mode one [period=10us] { actuator [freq=1] a := go;
            mode [freq=1] if isTrue(go) then two; [freq=1] one; }
        mode two [period=3us] { mode [freq=3] if isFalse(go) then one; } }";
    let mut session = started(text, "0 b1");
    expect(
        &mut session,
        &[
            ("look", "mode=0 count=0 remain=10 stopped=0 out=0 waiting=0 ports=b1,b0"),
            // nop, call, nop, if, switch; future, return.
            ("tick 10 b1", "ok 7"),
            ("look", "mode=1 count=10 remain=1 stopped=0 out=0 waiting=0 ports=b1,b1"),
            ("tick 11 b1", "ok 5"),
            ("tick 12 b0", "ok 6"),
            ("look", "mode=0 count=12 remain=10 stopped=0 out=0 waiting=0 ports=b0,b1"),
            ("tick 22 b0", "ok 7"),
            ("look", "mode=0 count=22 remain=10 stopped=0 out=0 waiting=0 ports=b0,b0"),
        ],
    );
}

/// A103: a guard that fails holds back the inputs too.
#[test]
fn guarded_release() {
    let text = "module M { sensor int s uses g; task t { input int i; uses f; }
        start mode m [period=2us] { task [freq=1] if less(s, s) then t(s); } }";
    let mut session = started(text, "0 i4");
    expect(
        &mut session,
        &[
            ("look", "mode=0 count=0 remain=2 stopped=0 out=0 waiting=0 ports=i4,i0"),
            ("tick 2 i5", "ok 7"),
            ("look", "mode=0 count=2 remain=2 stopped=0 out=0 waiting=0 ports=i5,i0"),
        ],
    );
}

/// A file of the given code: a sensor s, two tasks with one output each, and
/// modes that begin at 0 and at 1.
fn hostile(code: &[Instruction]) -> Vec<u8> {
    let names = b"Mstu";
    let name = |at| Span { at, length: 1 };
    let mut table = Table { module: name(0), ..Table::default() };
    table.sensors.push(Sensor { name: name(1), getter: name(1) });
    table.add_port(Role::Sensor, Type::Int, 0);
    for at in [2, 3] {
        table.open_task(name(at));
        table.last_task().function = name(at);
        table.add_output(name(at), Type::Int, at as i32);
    }
    table.drivers = vec![Driver::Terminate { task: 0 }, Driver::Terminate { task: 1 }];
    table.modes = vec![
        Mode { name: name(2), start: true, period: 1, begin: 0 },
        Mode { name: name(3), start: false, period: 1, begin: 1.min(code.len() as u32 - 1) },
    ];
    table.code = code.to_vec();
    let mut file = vec![0; 100_000];
    let length = writer::write(&table, names, &mut file).unwrap();
    file.truncate(length);
    file
}

/// The answer to a start of the code, and what look shows then.
fn run(code: &[Instruction]) -> (String, String) {
    let mut session = Session::new();
    let answer = ask(&mut session, &format!("start {} 5 i9", to_hex(&hostile(code))));
    (answer, ask(&mut session, "look"))
}

const AT_START: &str = "mode=0 count=5 remain=0 stopped=1 out=0 waiting=0 ports=i0,i2,i3";

fn faults(code: &[Instruction], fault: &str) {
    assert_eq!(run(code), (fault.to_string(), AT_START.to_string()), "{code:?}");
}

/// A79 to A83.
#[test]
fn faults_at_the_start() {
    let future = Future { pc: 0, delay: 1 };
    faults(&[future, Jump(0)], "fault 41 -1");
    faults(&[Nop(0)], "fault 41 -1");
    faults(&[Jump(0)], "fault 41 -1");
    faults(&[Return], "fault 42 -1");
    faults(&[future, future, Return], "fault 42 -1");
    faults(&[future, Release(1), Release(1), Return], "fault 43 -1");
    faults(&[future, Release(1), Call(1), Return], "fault 40 1");
    faults(&[Switch(1), Return], "fault 42 -1");
    // The last of as many as there are may be a return, or the fault itself.
    assert_eq!(run(&[future, Jump(2), Return]).0, "ok 3");
    faults(&[future, Jump(0), Nop(0)], "fault 42 -1");
    faults(&[future, Release(0), Jump(1)], "fault 41 -1");
    faults(&[future, Release(0), Jump(1), Nop(0)], "fault 43 -1");
}

/// A75, A76, A89: a task is out until it is terminated; one that isn't out has nothing to give.
#[test]
fn tasks_of_hostile_code() {
    let code = [
        Release(0),
        Future { pc: 3, delay: 1 },
        Return,
        Call(0),
        Call(0),
        Call(1),
        Future { pc: 8, delay: 1 },
        Return,
        Call(0),
        Release(0),
        Release(0),
        Future { pc: 0, delay: 1 },
        Return,
    ];
    let mut session = Session::new();
    let start = format!("start {} 0 i0", to_hex(&hostile(&code)));
    expect(
        &mut session,
        &[
            (&start, "ok 3"),
            ("next", "task 0"),
            ("finish 0 i77", "ok 0"),
            ("tick 1 i1", "ok 5"),
            ("look", "mode=0 count=1 remain=1 stopped=0 out=0 waiting=0 ports=i1,i77,i3"),
            ("tick 2 i2", "fault 43 -1"),
            ("look", "mode=0 count=1 remain=1 stopped=1 out=0 waiting=0 ports=i1,i77,i3"),
        ],
    );
}

/// A74: 30 before 32, and a refused start takes the old machine away.
#[test]
fn refused_starts() {
    let file = to_hex(&compiled(TWO));
    let good = format!("start {file} 0 -");
    let wrong = format!("start {file} 0 i1");
    let broken = format!("start {}00 0 i1", file);
    let mut session = Session::new();
    expect(
        &mut session,
        &[
            ("look", "none"),
            ("tick 0 -", "none"),
            ("next", "none"),
            ("finish 0 -", "none"),
            (&good, "ok 6"),
            (&wrong, "refused 32"),
            ("look", "none"),
            (&good, "ok 6"),
            (&broken, "refused 30"),
            ("tick 0 -", "none"),
            ("start - 0 -", "refused 30"),
        ],
    );
}
