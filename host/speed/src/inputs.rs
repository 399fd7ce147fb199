//! What is timed: a module of nearly 16 KB, the largest file, and modules whose due tick obeys 20 instructions.

use std::fmt::Write;

/// The text of a module that uses every section and construct, just under the room of 16,384 bytes.
pub fn station() -> Vec<u8> {
    let mut text = String::from("// A station of 20 docks: what is counted, shown, locked and charged, by day and by night.\nmodule Station {\n");
    constants(&mut text);
    declarations(&mut text);
    for task in 0..20 {
        let _ = write!(text, "  task count_{task:02} {{\n    input int seen; int before; boolean open;\n    output int total := {}; boolean full := false;\n    uses countBikes_{task:02};\n  }}\n", task * 3 - 7);
    }
    for mode in 0..8 {
        one_mode(&mut text, mode);
    }
    text.push_str("}\n");
    // What is left of the room is a comment behind the module.
    while text.len() + 57 <= 16384 {
        text.push_str("// The sign never shows a bike that nobody has brought.\n");
    }
    text.into_bytes()
}

fn constants(text: &mut String) {
    text.push_str("  const\n");
    for place in 0..36 {
        let _ = match place % 4 {
            0 => writeln!(text, "    limit_{place:02} = {};", place * 5 + 1),
            1 => writeln!(text, "    limit_{place:02} = -{};", place * 100_003),
            2 => writeln!(text, "    limit_{place:02} = limit_{:02};", place - 2),
            _ => writeln!(text, "    allowed_{place:02} = {};", place % 8 == 3),
        };
    }
}

fn declarations(text: &mut String) {
    text.push_str("  sensor\n");
    for place in 0..16 {
        let _ = writeln!(text, "    int bikes_{place:02} uses readBikes_{place:02};");
        let _ =
            writeln!(text, "    boolean open_{place:02} uses isOpen_{place:02}; /* the door */");
    }
    text.push_str("  actuator\n");
    for place in 0..16 {
        let _ = writeln!(
            text,
            "    int sign_{place:02} := limit_{:02} uses showSign_{place:02};",
            place / 4 * 8
        );
        let _ = writeln!(
            text,
            "    boolean lamp_{place:02} := allowed_{:02} uses setLamp_{place:02};",
            place % 4 * 8 + 3
        );
    }
}

fn one_mode(text: &mut String, mode: usize) {
    let start = if mode == 0 { "start " } else { "" };
    let _ =
        writeln!(text, "  {start}mode serve_{mode} [period = {}ms] {{\n    task", 120 * (mode + 1));
    for task in 0..8 {
        let (number, dock) = ((task * 2 + mode) % 20, (task + mode) % 16);
        let guard = match task % 3 {
            0 => format!("if less(bikes_{dock:02}, limit_{:02}) then ", dock * 2 / 4 * 4),
            1 => format!("if isTrue(open_{dock:02}) then "),
            _ => String::new(),
        };
        let _ = writeln!(text, "      [freq = {}] {guard}count_{number:02}(bikes_{dock:02}, count_{:02}.total, open_{dock:02});", 1 << (task % 3), (number + 1) % 20);
    }
    text.push_str("    actuator\n");
    for update in 0..7 {
        let (place, number) = ((update + mode) % 16, (update * 2 + mode) % 20);
        let _ = if update % 2 == 0 {
            writeln!(
                text,
                "      [freq = {}] sign_{place:02} := count_{number:02}.total;",
                1 << (update % 3)
            )
        } else {
            writeln!(text, "      [freq = 2] if equal(count_{number:02}.full, allowed_{:02}) then lamp_{place:02} := open_{place:02};", update / 2 * 8 + 3)
        };
    }
    let _ = writeln!(
        text,
        "    mode\n      [freq = 1] if isFalse(open_{mode:02}) then serve_{};\n  }}",
        (mode + 3) % 8
    );
}

/// A due tick of 20 instructions with no task: five updates, five more under guards that hold.
pub const UPDATES: &str = "module Updates {
    const limit = 100;
    sensor int bikes uses getBikes; boolean open uses isOpen;
    actuator int a := 0 uses f; int b := 0 uses f; int c := 0 uses f; int d := 0 uses f; int e := 0 uses f;
        boolean k := false uses g; boolean l := false uses g; boolean m := false uses g; boolean n := false uses g; boolean o := false uses g;
    start mode serve [period = 5ms] {
        actuator
            [freq = 1] a := bikes; [freq = 1] b := bikes; [freq = 1] c := bikes; [freq = 1] d := bikes; [freq = 1] e := bikes;
            [freq = 1] if isTrue(open) then k := open;
            [freq = 1] if less(bikes, limit) then l := open;
            [freq = 1] if equal(bikes, bikes) then m := open;
            [freq = 1] if isTrue(open) then n := open;
            [freq = 1] if less(bikes, limit) then o := open;
    }
}";

/// A due tick of 20 instructions with two tasks: their results handed out, nine instructions of updates, both released.
pub const TASKS: &str = "module Tasks {
    const limit = 100;
    sensor int bikes uses getBikes; boolean open uses isOpen;
    actuator int a := 0 uses f; int b := 0 uses f; int c := 0 uses f;
        boolean k := false uses g; boolean l := false uses g; boolean m := false uses g;
    task count { input int n; output int o := 10; uses countBikes; }
    task watch { input boolean b; output boolean seen := false; uses watchDoor; }
    start mode serve [period = 5ms] {
        task [freq = 1] count(bikes); [freq = 1] watch(open);
        actuator
            [freq = 1] a := count.o; [freq = 1] b := bikes; [freq = 1] c := count.o;
            [freq = 1] if isTrue(open) then k := watch.seen;
            [freq = 1] if less(bikes, limit) then l := open;
            [freq = 1] if equal(watch.seen, open) then m := open;
    }
}";

/// The file at every room's limit: 4,096 instructions, 288 drivers, 256 guards, every table full.
pub fn largest_file() -> Vec<u8> {
    let mut body = vec![1];
    string(&mut body, "M");
    count(&mut body, 32);
    for place in 0..32 {
        name(&mut body, 's', place);
        body.push(0);
        name(&mut body, 'g', place);
    }
    count(&mut body, 32);
    for place in 0..32 {
        name(&mut body, 'a', place);
        body.push(0);
        long(&mut body, place);
        name(&mut body, 'f', place);
    }
    tasks(&mut body);
    drivers(&mut body);
    count(&mut body, 256);
    for place in 0..256 {
        string(&mut body, "less");
        body.extend([2, 0]);
        short(&mut body, place % 32);
        body.extend([1, 0]);
        long(&mut body, place);
    }
    count(&mut body, 8);
    for place in 0..8 {
        name(&mut body, 'm', place);
        body.push((place == 0) as u8);
        long(&mut body, 2_147_483_647);
        long(&mut body, 4095);
    }
    count(&mut body, 4096);
    for place in 0..4095 {
        instruction(&mut body, 4, place % 256, place);
    }
    instruction(&mut body, 6, u32::MAX, u32::MAX);
    let mut file = (body.len() as u32).to_be_bytes().to_vec();
    file.extend(body);
    file
}

fn tasks(body: &mut Vec<u8>) {
    count(body, 32);
    for task in 0..32 {
        name(body, 't', task);
        name(body, 'u', task);
        body.extend([4, 0, 0, 0, 0, 4]);
        for output in 0..4 {
            name(body, 'o', 4 * task + output);
            body.push(0);
            long(body, u32::MAX);
        }
    }
}

fn drivers(body: &mut Vec<u8>) {
    count(body, 288);
    for task in 0..32 {
        body.push(5);
        short(body, task);
    }
    for place in 0..128 {
        body.push(4);
        short(body, place % 32);
        body.push(4);
        for _ in 0..4 {
            short(body, place % 32);
        }
    }
    for place in 0..128 {
        body.push(3);
        short(body, place % 32);
        short(body, 32 + place % 32);
    }
}

fn string(body: &mut Vec<u8>, text: &str) {
    body.push(text.len() as u8);
    body.extend(text.bytes());
}

/// A name of 32 bytes.
fn name(body: &mut Vec<u8>, kind: char, place: u32) {
    string(body, &format!("{:_<32}", format!("{kind}{place}")));
}

fn short(body: &mut Vec<u8>, number: u32) {
    body.extend((number as u16).to_be_bytes());
}

fn count(body: &mut Vec<u8>, number: u32) {
    short(body, number);
}

fn long(body: &mut Vec<u8>, number: u32) {
    body.extend(number.to_be_bytes());
}

fn instruction(body: &mut Vec<u8>, opcode: u8, first: u32, second: u32) {
    body.push(opcode);
    long(body, first);
    long(body, second);
}
