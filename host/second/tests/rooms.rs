//! Rooms: the last that fits, and the first too many with its place.

mod common;

use common::{compile, compiled, refused};
use second::compiler::{Compiler, Refusal};

const MODE: &str = "start mode m [period=1us] { }";

fn list(count: usize, item: impl Fn(usize) -> String) -> String {
    (0..count).map(item).collect()
}

fn module(declarations: &str) -> String {
    format!("module M {{ {declarations} {MODE} }}")
}

/// The text with `room` items passes, with one more it is 11 at the last one's mark.
fn room(room: usize, text: impl Fn(usize) -> String, mark: &str) {
    compiled(&text(room));
    let over = text(room + 1);
    let place = over.find(mark).expect("the mark") as u32;
    assert_eq!(refused(&over), (11, place), "{over}");
}

#[test]
fn declarations() {
    let constants = |count| module(&format!("const {}", list(count, |n| format!("c{n}=1;"))));
    room(64, constants, "c64");
    let sensors =
        |count| module(&format!("sensor {}", list(count, |n| format!("int s{n} uses g;"))));
    room(32, sensors, "s32");
    let actuators =
        |count| module(&format!("actuator {}", list(count, |n| format!("int a{n} := 1 uses g;"))));
    room(32, actuators, "a32");
    let tasks = |count| module(&list(count, |n| format!("task t{n} {{ uses f; }} ")));
    room(32, tasks, "t32");
    let modes = |count| module(&list(count, |n| format!("mode m{n} [period=1us] {{ }} ")));
    room(7, modes, "m [");
}

#[test]
fn ports_of_a_task() {
    let inputs = |count| {
        let inputs = list(count, |n| format!("int i{n};"));
        module(&format!("task t {{ input {inputs} uses f; }}"))
    };
    room(8, inputs, "i8");
    let outputs = |count| {
        let outputs = list(count, |n| format!("int o{n} := 1;"));
        module(&format!("task t {{ output {outputs} uses f; }}"))
    };
    room(8, outputs, "o8");
}

/// 16 tasks of 8 are 128; one more in a 17th task is too many.
#[test]
fn ports_in_all() {
    let tasks = |section: &str, port: &str| {
        let ports = list(8, |n| port.replace('#', &format!("p{n}")));
        let full = list(16, |n| format!("task t{n} {{ {section} {ports} uses f; }} "));
        let last = port.replace('#', "last");
        (module(&full), module(&format!("{full} task u {{ {section} {last} uses f; }}")))
    };
    for (section, port) in [("input", "int #;"), ("output", "int # := 1;")] {
        let (full, over) = tasks(section, port);
        compiled(&full);
        assert_eq!(refused(&over), (11, over.find("last").unwrap() as u32));
    }
}

/// A44: invocations, updates and switches count together.
#[test]
fn activities_of_a_mode() {
    let tasks = list(31, |n| format!("task t{n} {{ uses f; }} "));
    let invoked = list(31, |n| format!("[freq=1] t{n}(); "));
    let text = |switches| {
        let switches = list(switches, |n| format!("[freq=1{}] m; ", " ".repeat(n)));
        format!(
            "module M {{ {tasks} start mode m [period=1us] {{ task {invoked} mode {switches} }} }}"
        )
    };
    room(1, text, "[freq=1 ]");
}

#[test]
fn length_of_a_text() {
    let text = |length: usize| {
        let module = module("");
        format!("{module}{}", " ".repeat(length - module.len()))
    };
    compiled(&text(16_384));
    assert_eq!(refused(&text(16_385)), (1, 0));
    assert_eq!(refused(&"$".repeat(16_384)), (2, 0));
    assert_eq!(refused(&"$".repeat(16_385)), (1, 0));
}

/// A mode of s switches, 64 times in a period: 2 instructions begin it, 63 blocks have s + 4, the
/// last one s + 3. One of s switches, once in a period, has s + 5.
#[test]
fn length_of_the_code() {
    let switches = |count, frequency| list(count, |_| format!("[freq={frequency}] m;"));
    let text = |last| {
        format!(
            "module M {{ start mode m [period=64us] {{ mode {} }} \
             mode n [period=64us] {{ mode {} }} mode o [period=1us] {{ mode {} }} }}",
            switches(28, 64),
            switches(27, 64),
            switches(last, 1),
        )
    };
    let length = |last| {
        let mut compiler = Compiler::new();
        compiler.translate(text(last).as_bytes()).map(|table| table.code.len())
    };
    assert_eq!(length(0), Ok(2049 + 1985 + 5));
    assert_eq!(length(32), Ok(2049 + 1985 + 37));
    let longer = |last| {
        text(32)
            .replace("} }", &format!("}} mode p [period=1us] {{ mode {} }} }}", switches(last, 1)))
    };
    let file = compile(longer(20).as_bytes()).expect("4,096 instructions");
    assert_eq!(file.len() - 4096 * 9, 4 + 1 + 2 + 6 * 2 + 4 * 11 + 2);
    assert_eq!(refused(&longer(21)), (13, longer(21).len() as u32));
}

/// A48, A49: at the text length 12 comes before 13; a second start is further left.
#[test]
fn no_start_mode_and_code_too_long() {
    let often = list(32, |_| "[freq=64] m;".to_string());
    let modes = |start: &str| {
        format!(
            "module M {{ {start} mode m [period=64us] {{ mode {often} }} \
             mode n [period=64us] {{ mode {often} }} }}"
        )
    };
    let (with, without) = (modes("start"), modes(""));
    assert_eq!(refused(&with), (13, with.len() as u32));
    assert_eq!(refused(&without), (12, without.len() as u32));
}

#[test]
fn length_of_the_output() {
    let text = module("");
    let file = compile(text.as_bytes()).unwrap();
    let mut compiler = Compiler::new();
    let mut output = vec![0xAA; file.len()];
    let refusal = Refusal { number: 14, offset: text.len() as u32 };
    for room in 0..file.len() {
        assert_eq!(compiler.compile(text.as_bytes(), &mut output[..room]), Err(refusal));
        assert!(output.iter().all(|&byte| byte == 0xAA));
    }
    assert_eq!(compiler.compile(text.as_bytes(), &mut output), Ok(file.len()));
    assert_eq!(output, file);
    let mut longer = vec![0xAA; file.len() + 9];
    assert_eq!(compiler.compile(text.as_bytes(), &mut longer), Ok(file.len()));
    assert_eq!(longer[file.len()..], [0xAA; 9]);
}
