//! Malformed requests, and requests at the edge of being so.

use super::random::Random;

const ODD: [&[u8]; 40] = [
    b"",
    b" ",
    b"next ",
    b" next",
    b"NEXT",
    b"look 1",
    b"look\r",
    b"tick",
    b"tick 1",
    b"tick 1 i",
    b"tick 1 i1,",
    b"tick 1 ,",
    b"tick 1 b2",
    b"tick -1 -",
    b"tick 4294967296 -",
    b"tick 1  -",
    b"tick x -",
    b"finish 0",
    b"finish -1 -",
    b"finish 4294967296 -",
    b"finish 99999999999 i1",
    b"finish 4294967295 -",
    b"finish 0 i1 ",
    b"compile",
    b"compile -",
    b"compile - -",
    b"compile 0 9",
    b"compile 0G 9",
    b"compile AB 9",
    b"compile - 4294967296",
    b"compile - 4294967295",
    b"read",
    b"read 0",
    b"read --",
    b"read - ",
    b"start",
    b"start - 0",
    b"start - 4294967296 -",
    b"tick 0000000000000000005 i-0,i00",
    b"start - 0 i99999999999999999999",
];

pub fn odd_line(random: &mut Random) -> Vec<u8> {
    match random.below(60) {
        0 => long_line(random),
        1 => (0..random.below(60)).map(|_| random.byte()).filter(|&byte| byte != b'\n').collect(),
        _ => random.pick(&ODD).to_vec(),
    }
}

/// Lines and byte strings as long as may be, and one longer.
fn long_line(random: &mut Random) -> Vec<u8> {
    match random.below(4) {
        0 => format!("read {}", "00".repeat(100_000)),
        1 => format!("read {}", "00".repeat(100_001)),
        2 => format!("tick 0 {}i1", "i1,".repeat((262_143 - 9) / 3)),
        _ => format!("tick 0 {}i12", "i1,".repeat((262_143 - 9) / 3)),
    }
    .into_bytes()
}

/// A good line with a byte or so of damage.
pub fn damage_line(line: &mut Vec<u8>, random: &mut Random) {
    let place = random.below(line.len() + 1);
    let byte = random.pick(b" -0g,ib1A9");
    match random.below(3) {
        0 if place < line.len() => line[place] = byte,
        1 if place < line.len() => drop(line.remove(place)),
        _ => line.insert(place, byte),
    }
}
