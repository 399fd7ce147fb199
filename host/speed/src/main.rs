//! The benchmark. `speed TEXT..` first checks that both sides give equal answers on the texts and on its own inputs, then times them in turn.
//! `speed --calls SIDE WHAT COUNT` makes so many calls on one side and says nothing: for a profiler.

mod inputs;
mod native;
mod pair;
mod rounds;

use native::Board;
use pair::Pair;
use rounds::{take_turns, Times};
use second::compiler::Compiler;
use second::file::reader;
use second::table::{Instruction, Table};
use std::hint::black_box;

/// What is the same for every run: the texts, the files, and room for both sides.
struct Bench {
    station: Vec<u8>,
    largest: Vec<u8>,
    compiler: Compiler,
    output: Vec<u8>,
    other_output: Vec<u8>,
    board: Box<Board>,
    table: Table,
}

impl Bench {
    fn new() -> Bench {
        Bench {
            station: inputs::station(),
            largest: inputs::largest_file(),
            compiler: Compiler::new(),
            output: vec![0; 71364],
            other_output: vec![0; 71364],
            board: Board::new(),
            table: Table::default(),
        }
    }

    /// The same file or the same refusal from both compilers.
    fn compiles_alike(&mut self, text: &[u8]) -> Option<usize> {
        let proved = native::compile(text, &mut self.output);
        match self.compiler.compile(text, &mut self.other_output) {
            Ok(length) => {
                assert_eq!((proved.number, proved.place), (0, length), "both accept the text");
                assert_eq!(self.output[..length], self.other_output[..length], "the same file");
                Some(length)
            }
            Err(refusal) => {
                assert_eq!(
                    (proved.number, proved.place),
                    (refusal.number, refusal.offset as usize),
                    "the same refusal"
                );
                None
            }
        }
    }

    fn file_of(&mut self, text: &[u8]) -> Vec<u8> {
        let length = self.compiles_alike(text).expect("a good module");
        self.output[..length].to_vec()
    }

    /// The same number and the same code from both readers.
    fn reads_alike(&mut self, file: &[u8]) {
        let number = self.board.read(file);
        match reader::read(file, &mut self.table) {
            Ok(()) => {
                assert_eq!(number, 0, "both readers take the file");
                let code: Vec<u32> = self.table.code.iter().flat_map(row).collect();
                assert_eq!(self.board.code(), code, "the same code");
            }
            Err(refusal) => assert_eq!(number, refusal, "the same number"),
        }
    }

    /// Every good and cut short input, on both sides.
    fn check(&mut self, texts: &[Vec<u8>]) {
        let station = self.station.clone();
        for text in texts.iter().chain([&station]) {
            let file = self.file_of(text);
            self.reads_alike(&file);
            for cut in (0..text.len()).step_by(1 + text.len() / 200) {
                self.compiles_alike(&text[..cut]);
            }
            for cut in (0..file.len()).step_by(1 + file.len() / 200) {
                self.reads_alike(&file[..cut]);
            }
        }
        let largest = self.largest.clone();
        self.reads_alike(&largest);
    }
}

/// An instruction as the row of three numbers that the file has.
fn row(instruction: &Instruction) -> [u32; 3] {
    const UNUSED: u32 = u32::MAX;
    match *instruction {
        Instruction::Nop(marker) => [0, marker as u32, UNUSED],
        Instruction::Future { pc, delay } => [1, pc, delay],
        Instruction::Call(driver) => [2, driver, UNUSED],
        Instruction::Release(task) => [3, task, UNUSED],
        Instruction::If { guard, otherwise } => [4, guard, otherwise],
        Instruction::Jump(pc) => [5, pc, UNUSED],
        Instruction::Return => [6, UNUSED, UNUSED],
        Instruction::Switch(mode) => [7, mode, UNUSED],
    }
}

const BIKES: &str = include_str!("../../../docks/bikes.tdl");

fn main() {
    let words: Vec<String> = std::env::args().skip(1).collect();
    if let [calls, side, what, count] = &words[..] {
        if calls == "--calls" {
            return calls_alone(side == "proved", what, count.parse().expect("a count of calls"));
        }
    }
    let texts: Vec<Vec<u8>> =
        words.iter().map(|path| std::fs::read(path).expect("a text")).collect();
    let mut bench = Bench::new();
    bench.check(&texts);
    let station = bench.station.clone();
    let length = bench.file_of(&station).len();
    println!(
        "inputs: a module of {} bytes, whose file has {length}; the largest file, {} bytes",
        station.len(),
        bench.largest.len()
    );
    println!("| what | proved | second | times | least: proved | second | times |");
    println!("|---|---|---|---|---|---|---|");
    time_compiler_and_reader(&mut bench);
    let bikes = bench.file_of(BIKES.as_bytes());
    let updates = bench.file_of(inputs::UPDATES.as_bytes());
    let tasks = bench.file_of(inputs::TASKS.as_bytes());
    time_ticks(&bikes, &updates, &tasks);
    time_copies(&bikes, &updates);
}

fn report(what: &str, Times { proved, second }: &Times) {
    println!(
        "| {what} | {} | {} | {:.2} | {} | {} | {:.2} |",
        shown(proved.median),
        shown(second.median),
        proved.median / second.median,
        shown(proved.best),
        shown(second.best),
        proved.best / second.best
    );
}

fn shown(nanoseconds: f64) -> String {
    if nanoseconds < 10_000.0 {
        format!("{nanoseconds:.1} ns")
    } else {
        format!("{:.1} us", nanoseconds / 1000.0)
    }
}

fn time_compiler_and_reader(bench: &mut Bench) {
    let Bench { station, largest, compiler, output, other_output, board, table } = bench;
    let times = take_turns(
        |calls| (0..calls).for_each(|_| _ = black_box(native::compile(black_box(station), output))),
        |calls| {
            (0..calls)
                .for_each(|_| _ = black_box(compiler.compile(black_box(station), other_output)))
        },
    );
    report("compile the module", &times);
    let speed = |nanoseconds: f64| station.len() as f64 * 1000.0 / nanoseconds;
    let (proved, second) = (speed(times.proved.median), speed(times.second.median));
    let times = take_turns(
        |calls| (0..calls).for_each(|_| _ = black_box(board.read(black_box(largest)))),
        |calls| (0..calls).for_each(|_| _ = black_box(reader::read(black_box(largest), table))),
    );
    report("read the largest file", &times);
    eprintln!("compile: {proved:.1} MB/s proved, {second:.1} MB/s second");
}

fn time_ticks(bikes: &[u8], updates: &[u8], tasks: &[u8]) {
    let (mut here, mut there) = (Pair::start(bikes), Pair::start(bikes));
    let obeyed = here.checked();
    assert_eq!(obeyed, 9, "bench case 8");
    report(
        "tick, idle, case 8",
        &take_turns(|calls| here.proved_idle(calls), |calls| there.second_idle(calls)),
    );
    for (name, file, wanted) in [
        ("case 8, 9 instructions, with next and finish of its task", bikes, 9),
        ("20 instructions, no task", updates, 20),
        ("20 instructions, with next and finish of two tasks", tasks, 20),
    ] {
        let (mut here, mut there) = (Pair::start(file), Pair::start(file));
        assert_eq!(here.checked(), wanted, "instructions of a due tick");
        let times =
            take_turns(|calls| _ = here.proved_due(calls), |calls| _ = there.second_due(calls));
        report(&format!("tick, due, {name}"), &times);
    }
}

/// The machine handed on by value, one start to the calls of a round.
fn time_copies(bikes: &[u8], updates: &[u8]) {
    for (name, file, later) in
        [("idle, case 8", bikes, 0), ("due, 20 instructions, no task", updates, 5000)]
    {
        let (pair, mut there) = (Pair::start(file), Pair::start(file));
        let (count, readings) = pair.start_readings();
        let held = native::ticks(file, count, later, 1000, readings);
        if later == 0 {
            there.second_idle(1000);
        } else {
            there.second_due(1000);
        }
        assert_eq!(
            (held.clock, held.remaining, held.stopped),
            (there.second.count(), there.second.remaining(), false),
            "both stand alike"
        );
        let times = take_turns(
            |calls| _ = black_box(native::ticks(black_box(file), count, later, calls, readings)),
            |calls| if later == 0 { there.second_idle(calls) } else { _ = there.second_due(calls) },
        );
        report(&format!("tick by value, {name}"), &times);
    }
}

fn calls_alone(proved: bool, what: &str, calls: u32) {
    let mut bench = Bench::new();
    match (what, proved) {
        ("compile", true) => (0..calls).for_each(|_| {
            _ = black_box(native::compile(black_box(&bench.station), &mut bench.output))
        }),
        ("compile", false) => (0..calls).for_each(|_| {
            _ = black_box(bench.compiler.compile(black_box(&bench.station), &mut bench.output))
        }),
        ("read", true) => {
            (0..calls).for_each(|_| _ = black_box(bench.board.read(black_box(&bench.largest))))
        }
        ("read", false) => (0..calls)
            .for_each(|_| _ = black_box(reader::read(black_box(&bench.largest), &mut bench.table))),
        _ => {
            let text = if what == "updates" {
                inputs::UPDATES
            } else if what == "tasks" {
                inputs::TASKS
            } else {
                BIKES
            };
            let mut output = vec![0; 71364];
            let length =
                bench.compiler.compile(text.as_bytes(), &mut output).expect("a good module");
            let mut pair = Pair::start(&output[..length]);
            match (what, proved) {
                ("idle", true) => pair.proved_idle(calls),
                ("idle", false) => pair.second_idle(calls),
                (_, true) => _ = pair.proved_due(calls),
                (_, false) => _ = pair.second_due(calls),
            }
        }
    }
}
