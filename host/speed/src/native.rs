//! The proved side: the functions of crates/native, and a machine held in arrays of this program.

/// The compiler's answer: 0 and the length of the file, or the refusal's number and byte offset.
#[repr(C)]
#[derive(Clone, Copy, Debug, PartialEq, Eq)]
pub struct Translation {
    pub number: u8,
    pub place: usize,
}

/// Where a machine stands.
#[repr(C)]
#[derive(Clone, Copy, Debug, Default, PartialEq, Eq)]
pub struct Held {
    pub clock: u32,
    pub remaining: u32,
    pub mode: u32,
    pub pc: u32,
    pub out: u64,
    pub waiting: u64,
    pub finished: u64,
    pub stopped: bool,
    pub fault: u8,
    pub late: u32,
}

#[repr(C)]
#[derive(Clone, Copy, Debug)]
pub struct Face {
    pub number: u8,
    pub instructions: u32,
    pub task: u32,
}

const NO_TASK: u32 = u32::MAX;

// A slice is handed over as its pointer and its length, an array as its pointer.
#[link(name = "native", kind = "static")]
extern "C" {
    fn native_compile(text: *const u8, length: usize, out: *mut u8, room: usize) -> Translation;
    fn native_read(
        bytes: *const u8,
        length: usize,
        counts: *mut [u32; 3],
        code: *mut [u32; 12288],
        drivers: *mut [u32; 3456],
        guards: *mut [u32; 1536],
        modes: *mut [u32; 24],
        tasks: *mut [u32; 128],
        types: *mut [u32; 320],
        starts: *mut [u32; 320],
    ) -> u8;
    fn native_tick(
        instructions: u32,
        code: *const [u32; 12288],
        drivers: *const [u32; 3456],
        guards: *const [u32; 1536],
        modes: *const [u32; 24],
        tasks: *const [u32; 128],
        wanted: *const [u32; 320],
        sensors: u32,
        aside: *const [u32; 256],
        ports: *mut [u32; 320],
        numbers: *mut [u32; 5],
        marks: *mut [u8; 2],
        sets: *mut [u64; 3],
        count: u32,
        types: *const u32,
        types_length: usize,
        words: *const u32,
        words_length: usize,
    ) -> Face;
    fn native_next(marks: *const [u8; 2], sets: *mut [u64; 3]) -> Face;
    fn native_finish(
        tasks: *const [u32; 128],
        wanted: *const [u32; 320],
        aside: *mut [u32; 256],
        marks: *const [u8; 2],
        sets: *mut [u64; 3],
        task: u32,
        types: *const u32,
        types_length: usize,
        words: *const u32,
        words_length: usize,
    ) -> Face;
    fn native_ticks(
        bytes: *const u8,
        length: usize,
        count: u32,
        later: u32,
        times: u32,
        types: *const u32,
        types_length: usize,
        words: *const u32,
        words_length: usize,
    ) -> Held;
}

pub fn compile(text: &[u8], out: &mut [u8]) -> Translation {
    unsafe { native_compile(text.as_ptr(), text.len(), out.as_mut_ptr(), out.len()) }
}

/// What a machine needs of a table.
pub struct Board {
    counts: [u32; 3],
    code: [u32; 12288],
    drivers: [u32; 3456],
    guards: [u32; 1536],
    modes: [u32; 24],
    tasks: [u32; 128],
    types: [u32; 320],
    starts: [u32; 320],
}

impl Board {
    pub fn new() -> Box<Board> {
        Box::new(Board {
            counts: [0; 3],
            code: [0; 12288],
            drivers: [0; 3456],
            guards: [0; 1536],
            modes: [0; 24],
            tasks: [0; 128],
            types: [0; 320],
            starts: [0; 320],
        })
    }

    pub fn read(&mut self, file: &[u8]) -> u8 {
        unsafe {
            native_read(
                file.as_ptr(),
                file.len(),
                &mut self.counts,
                &mut self.code,
                &mut self.drivers,
                &mut self.guards,
                &mut self.modes,
                &mut self.tasks,
                &mut self.types,
                &mut self.starts,
            )
        }
    }

    pub fn code(&self) -> &[u32] {
        &self.code[..3 * self.counts[0] as usize]
    }
}

/// Values as the proved machine takes them: their types (0 int, 1 boolean) and their words.
#[derive(Clone, Default)]
pub struct Values {
    pub types: Vec<u32>,
    pub words: Vec<u32>,
}

pub struct Machine {
    pub board: Box<Board>,
    numbers: [u32; 5],
    marks: [u8; 2],
    sets: [u64; 3],
    pub ports: [u32; 320],
    aside: [u32; 256],
}

impl Machine {
    /// A machine before its first reaction, which the tick at its own count then makes.
    pub fn begin(file: &[u8], count: u32) -> Machine {
        let mut board = Board::new();
        assert_eq!(board.read(file), 0, "the proved reader takes the file");
        let modes = board.counts[2] as usize;
        let start = (0..modes).find(|mode| board.modes[3 * mode] == 1).expect("a start mode");
        let numbers = [count, 0, start as u32, board.modes[3 * start + 2], 0];
        let ports = board.starts;
        Machine { board, numbers, marks: [0; 2], sets: [0; 3], ports, aside: [0; 256] }
    }

    pub fn count(&self) -> u32 {
        self.numbers[0]
    }

    pub fn remaining(&self) -> u32 {
        self.numbers[1]
    }

    pub fn held(&self) -> Held {
        let [clock, remaining, mode, pc, late] = self.numbers;
        let [stopped, fault] = self.marks;
        let [out, waiting, finished] = self.sets;
        Held {
            clock,
            remaining,
            mode,
            pc,
            out,
            waiting,
            finished,
            stopped: stopped != 0,
            fault,
            late,
        }
    }

    /// The number of the refusal or fault, or 0, and the instructions obeyed.
    pub fn tick(&mut self, count: u32, readings: &Values) -> (u8, u32) {
        let board = &*self.board;
        let face = unsafe {
            native_tick(
                board.counts[0],
                &board.code,
                &board.drivers,
                &board.guards,
                &board.modes,
                &board.tasks,
                &board.types,
                board.counts[1],
                &self.aside,
                &mut self.ports,
                &mut self.numbers,
                &mut self.marks,
                &mut self.sets,
                count,
                readings.types.as_ptr(),
                readings.types.len(),
                readings.words.as_ptr(),
                readings.words.len(),
            )
        };
        (face.number, face.instructions)
    }

    pub fn next_task(&mut self) -> Option<u32> {
        let face = unsafe { native_next(&self.marks, &mut self.sets) };
        (face.task != NO_TASK).then_some(face.task)
    }

    pub fn finish(&mut self, task: u32, results: &Values) -> u8 {
        let board = &*self.board;
        let face = unsafe {
            native_finish(
                &board.tasks,
                &board.types,
                &mut self.aside,
                &self.marks,
                &mut self.sets,
                task,
                results.types.as_ptr(),
                results.types.len(),
                results.words.as_ptr(),
                results.words.len(),
            )
        };
        face.number
    }
}

/// A file started at a count and ticked so many times, the machine handed on by value.
pub fn ticks(file: &[u8], count: u32, later: u32, times: u32, readings: &Values) -> Held {
    unsafe {
        native_ticks(
            file.as_ptr(),
            file.len(),
            count,
            later,
            times,
            readings.types.as_ptr(),
            readings.types.len(),
            readings.words.as_ptr(),
            readings.words.len(),
        )
    }
}
