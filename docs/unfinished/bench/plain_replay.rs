// The best plain Rust program for a recording, without proofs and without refusals of images: what `bench/replay` compares `replay` with.
// It reads an accepted image and the recording behind it, and prints what `replay` prints. Every clock is tabulated once, in rows of a vector;
// the possible states stand in a list, and a record costs a look into the table for each, with fresh marks so that none is listed twice.
// Where one state is left it is followed without list and marks. Bits that must be 0 are looked for in a whole part at a time.
mod plain_design;
use plain_design::{read, tabulate};
use std::io::{self, Read, Write};

const PART: usize = 65536;

struct Possible {
    list: [u8; 128],
    count: usize,
}

impl Possible {
    // Drops the states that show other outputs than a record does, and moves the rest. Inlined it takes two to three times as long.
    #[inline(never)]
    fn advance(&mut self, table: &[u16; 8192], record: u16) {
        let row = &table[(record >> 10) as usize * 128..][..128];
        let shown = (record >> 2) as u8;
        let mut marks = [false; 128];
        let mut count = 0;
        for i in 0..self.count {
            let entry = row[self.list[i] as usize % 128];
            if entry as u8 == shown {
                let next = (entry >> 8) as usize % 128;
                if !marks[next] {
                    marks[next] = true;
                    self.list[count] = next as u8;
                    count += 1;
                }
            }
        }
        self.count = count;
    }

    // Follows records until none is left or no state explains one: then that is its place from 0.
    fn follow(&mut self, table: &[u16; 8192], part: &[u8]) -> Option<usize> {
        let mut records = part.chunks_exact(2).map(word).enumerate();
        while self.count > 1 {
            let (i, record) = records.next()?;
            self.advance(table, record);
            if self.count == 0 {
                return Some(i);
            }
        }
        let mut state = self.list[0] as usize;
        for (i, record) in records {
            let entry = table[(record >> 10) as usize * 128 + state % 128];
            if entry as u8 != (record >> 2) as u8 {
                return Some(i);
            }
            state = entry as usize / 256;
        }
        self.list[0] = state as u8;
        None
    }
}

fn word(bytes: &[u8]) -> u16 {
    u16::from_be_bytes([bytes[0], bytes[1]])
}

// Reads behind what the part holds already, until it is full or the input ends; tells how much it holds then.
fn fill(part: &mut [u8], mut length: usize) -> usize {
    while length < part.len() {
        match io::stdin().read(&mut part[length..]).unwrap() {
            0 => break,
            more => length += more,
        }
    }
    length
}

fn main() {
    let mut part = vec![0; PART];
    let mut length = fill(&mut part, 0);
    let (design, mut start) = read(&part);
    let (next, out) = tabulate(&design);
    let states = 1 << design.latches;
    let mut table = [0; 8192];
    for (i, (&next, &out)) in next.iter().zip(&out).enumerate() {
        table[(i % (1 << design.inputs)) * 128 + (i >> design.inputs)] = (next as u16) << 8 | out as u16;
    }
    let unused = !((1 << 10 + design.inputs) - (1 << 10) | (1 << 2 + design.outputs) - (1 << 2)) as u16;
    let mut possible = Possible { list: [0; 128], count: states };
    for s in 0..states {
        possible.list[s] = s as u8;
    }
    let (mut before, mut spoiled, mut unexplained) = (0, false, None);
    let odd = loop {
        let records = &part[start..length];
        spoiled |= records.chunks_exact(2).fold(0, |bits, record| bits | word(record)) & unused != 0;
        if !spoiled && unexplained.is_none() {
            unexplained = possible.follow(&table, records).map(|i| before + i + 1);
        }
        before += records.len() / 2;
        let odd = records.len() % 2;
        if length < PART {
            break odd == 1;
        }
        part[0] = part[PART - 1];
        length = fill(&mut part, odd);
        start = 0;
    };
    let mut text = match (odd, spoiled, unexplained) {
        (true, _, _) => "REFUSED 22\n".to_string(),
        (_, true, _) => "REFUSED 23\n".to_string(),
        (_, _, Some(r)) => format!("UNEXPLAINED {}\n", r),
        _ => format!("STATES {} OF {}\n", possible.count, states),
    };
    if text.starts_with("STATES") {
        let left = &mut possible.list[..possible.count];
        left.sort();
        text.extend(left.iter().map(|s| format!("{}\n", s)));
    }
    io::stdout().write_all(text.as_bytes()).unwrap();
}
