// The best plain Rust program for the question, without proofs and without refusals: what `bench/run` compares `align` with.
// It reads two accepted images back to back and prints what `align` prints. A map holds one number a pair; a search goes backwards from the
// pairs found last, over tables of the states before each state, so that each pair is met once; one sweep over the cells for each clock.
use std::io::{self, Read, Write};

struct Design {
    inputs: usize,
    latches: usize,
    outputs: usize,
    cells: Vec<[usize; 3]>,
    // Data, enable and clear net of each flip-flop.
    flip_flops: Vec<[usize; 3]>,
    shown: Vec<usize>,
}

struct Bits<'a> {
    bytes: &'a [u8],
    at: usize,
}

impl Bits<'_> {
    fn take(&mut self, width: usize) -> usize {
        (0..width).fold(0, |n, _| {
            let bit = self.bytes[self.at / 8] >> (7 - self.at % 8) & 1;
            self.at += 1;
            n * 2 + bit as usize
        })
    }
}

// The design at the front of the bytes, and how many bytes it takes.
fn read(bytes: &[u8]) -> (Design, usize) {
    let mut bits = Bits { bytes, at: 0 };
    let (version, inputs, latches, outputs, count) = (bits.take(4), bits.take(4), bits.take(4), bits.take(4), bits.take(9));
    let cells = (0..count).map(|_| [bits.take(3), bits.take(9), bits.take(9)]).collect();
    let flip_flop = |_| match version {
        1 => [bits.take(9), 1, 0],
        _ => [bits.take(9), bits.take(9), bits.take(9)],
    };
    let flip_flops = (0..latches).map(flip_flop).collect();
    let shown = (0..outputs).map(|_| bits.take(9)).collect();
    let design = Design { inputs, latches, outputs, cells, flip_flops, shown };
    (design, (bits.at + 7) / 8)
}

// Which cells lead to a flip-flop or an output.
fn kept(d: &Design) -> Vec<bool> {
    let base = 2 + d.inputs + d.latches;
    let mut kept = vec![false; d.cells.len()];
    let mut nets: Vec<usize> = d.flip_flops.iter().flatten().chain(&d.shown).copied().collect();
    while let Some(net) = nets.pop() {
        if net >= base && !kept[net - base] {
            kept[net - base] = true;
            nets.extend(&d.cells[net - base][1..]);
        }
    }
    kept
}

// An order in which every kept cell stands behind those that it reads.
fn order(d: &Design) -> Vec<usize> {
    let base = 2 + d.inputs + d.latches;
    let mut placed: Vec<bool> = kept(d).iter().map(|kept| !kept).collect();
    let mut order = Vec::new();
    while placed.contains(&false) {
        let ready = |net: usize| net < base || placed[net - base];
        let next = (0..d.cells.len()).find(|&i| !placed[i] && ready(d.cells[i][1]) && ready(d.cells[i][2]));
        let next = next.expect("a loop of cells that leads to a flip-flop or an output");
        placed[next] = true;
        order.push(next);
    }
    order
}

fn gate(kind: usize, a: u8, b: u8) -> u8 {
    match kind {
        0 => a,
        1 => 1 - a,
        2 => a & b,
        3 => a | b,
        4 => a ^ b,
        5 => 1 - (a & b),
        6 => 1 - (a | b),
        _ => 1 - (a ^ b),
    }
}

// Next states and outputs, entry s * V + v.
fn tabulate(d: &Design) -> (Vec<u8>, Vec<u8>) {
    let base = 2 + d.inputs + d.latches;
    let order = order(d);
    let mut nets = vec![0u8; base + d.cells.len()];
    let (mut next, mut out) = (Vec::new(), Vec::new());
    for s in 0..1usize << d.latches {
        for v in 0..1usize << d.inputs {
            nets[1] = 1;
            for k in 0..d.inputs {
                nets[2 + k] = (v >> (d.inputs - 1 - k) & 1) as u8;
            }
            for k in 0..d.latches {
                nets[2 + d.inputs + k] = (s >> (d.latches - 1 - k) & 1) as u8;
            }
            for &i in &order {
                let [kind, a, b] = d.cells[i];
                nets[base + i] = gate(kind, nets[a], nets[b]);
            }
            next.push(d.flip_flops.iter().enumerate().fold(0, |n, (k, flip_flop)| {
                let [data, enable, clear] = flip_flop.map(|net| nets[net]);
                let held = nets[2 + d.inputs + k];
                n * 2 + (1 - clear) * (if enable == 1 { data } else { held })
            }));
            out.push(d.shown.iter().fold(0, |n, &net| n * 2 + nets[net]));
        }
    }
    (next, out)
}

// For each state and vector the states that the vector sends there, one after another.
struct Inverse {
    starts: Vec<u16>,
    states: Vec<u8>,
    vectors: usize,
}

impl Inverse {
    fn of(next: &[u8], count: usize, vectors: usize) -> Inverse {
        let mut starts = vec![0u16; count * vectors + 1];
        for (i, &t) in next.iter().enumerate() {
            starts[t as usize * vectors + i % vectors + 1] += 1;
        }
        for k in 0..count * vectors {
            starts[k + 1] += starts[k];
        }
        let mut ends = starts.clone();
        let mut states = vec![0u8; next.len()];
        for (i, &t) in next.iter().enumerate() {
            let end = &mut ends[t as usize * vectors + i % vectors];
            states[*end as usize] = (i / vectors) as u8;
            *end += 1;
        }
        Inverse { starts, states, vectors }
    }

    fn before(&self, t: usize, v: usize) -> &[u8] {
        let k = t * self.vectors + v;
        &self.states[self.starts[k] as usize..self.starts[k + 1] as usize]
    }
}

struct Pairs {
    next: [Vec<u8>; 2],
    out: [Vec<u8>; 2],
    states: [usize; 2],
    vectors: usize,
}

impl Pairs {
    fn step(&self, s0: usize, s1: usize, v: usize) -> (usize, usize) {
        (self.next[0][s0 * self.vectors + v] as usize, self.next[1][s1 * self.vectors + v] as usize)
    }

    fn differs(&self, s0: usize, s1: usize, v: usize) -> bool {
        self.out[0][s0 * self.vectors + v] != self.out[1][s1 * self.vectors + v]
    }

    // From a map of ones, one more for each step of the shortest list to them: backwards from the pairs found last, each met once.
    fn search(&self, back: &[Inverse; 2], map: &mut [u16]) {
        let mut found: Vec<u16> = (0..map.len()).filter(|&i| map[i] == 1).map(|i| i as u16).collect();
        found.reserve(map.len() - found.len());
        let mut at = 0;
        while at < found.len() {
            let i = found[at] as usize;
            at += 1;
            let (t0, t1) = (i / self.states[1], i % self.states[1]);
            for v in 0..self.vectors {
                for &s0 in back[0].before(t0, v) {
                    for &s1 in back[1].before(t1, v) {
                        let j = s0 as usize * self.states[1] + s1 as usize;
                        if map[j] == 0 {
                            map[j] = map[i] + 1;
                            found.push(j as u16);
                        }
                    }
                }
            }
        }
    }

    // The list from a pair down the map, behind a step or none, and the pair at its end.
    fn descend(&self, map: &[u16], mut s0: usize, mut s1: usize, mut before: Option<usize>) -> (Vec<usize>, usize, usize) {
        let mut list = Vec::new();
        while map[s0 * self.states[1] + s1] > 1 {
            let here = map[s0 * self.states[1] + s1];
            let down = |v: usize| {
                let (t0, t1) = self.step(s0, s1, v);
                map[t0 * self.states[1] + t1] + 1 == here
            };
            let v = self.pick(down, before);
            list.push(v);
            (s0, s1) = self.step(s0, s1, v);
            before = Some(v);
        }
        (list, s0, s1)
    }

    // The vector of the step before if it will do, and otherwise the lowest that will.
    fn pick(&self, will_do: impl Fn(usize) -> bool, before: Option<usize>) -> usize {
        before.filter(|&v| will_do(v)).or_else(|| (0..self.vectors).find(|&v| will_do(v))).expect("a map of shortest lists")
    }
}

fn main() {
    let mut input = Vec::new();
    io::stdin().read_to_end(&mut input).unwrap();
    let (old, taken) = read(&input);
    let (new, _) = read(&input[taken..]);
    let (next0, out0) = tabulate(&old);
    let (next1, out1) = tabulate(&new);
    let p = Pairs { next: [next0, next1], out: [out0, out1], states: [1 << old.latches, 1 << new.latches], vectors: 1 << old.inputs };
    let all = p.states[0] * p.states[1];
    let mut depth = vec![0u16; all];
    for i in 0..all {
        let (s0, s1) = (i / p.states[1], i % p.states[1]);
        depth[i] = (0..p.vectors).any(|v| p.differs(s0, s1, v)) as u16;
    }
    let back = [0, 1].map(|d| Inverse::of(&p.next[d], p.states[d], p.vectors));
    p.search(&back, &mut depth);
    let mut reach: Vec<u16> = depth.iter().map(|&d| (d == 0) as u16).collect();
    p.search(&back, &mut reach);
    let mut text = String::new();
    text += &format!("INPUTS {} OUTPUTS {} LATCHES {} {}\n", old.inputs, old.outputs, old.latches, new.latches);
    text += &format!("ALIKE {} OF {}\n", depth.iter().filter(|&&d| d == 0).count(), all);
    text += &format!("ALIGNABLE {} OF {}\n", reach.iter().filter(|&&d| d != 0).count(), all);
    match reach.iter().position(|&d| d == 0) {
        Some(i) => {
            let (mut s0, mut s1) = (i / p.states[1], i % p.states[1]);
            let (mut list, t0, t1) = p.descend(&depth, s0, s1, None);
            list.push(p.pick(|v| p.differs(t0, t1, v), list.last().copied()));
            text += &format!("APART {} {} {}\n", s0, s1, list.len());
            for v in list {
                text += &format!("{} {} {}\n", v, p.out[0][s0 * p.vectors + v], p.out[1][s1 * p.vectors + v]);
                (s0, s1) = p.step(s0, s1, v);
            }
        }
        None => {
            let mut may = [vec![true; p.states[0]], vec![true; p.states[1]]];
            let mut list = Vec::new();
            while let Some(i) = (0..all).find(|&i| may[0][i / p.states[1]] && may[1][i % p.states[1]] && depth[i] != 0) {
                let (part, _, _) = p.descend(&reach, i / p.states[1], i % p.states[1], list.last().copied());
                for &v in &part {
                    for d in 0..2 {
                        let mut image = vec![false; p.states[d]];
                        for s in 0..p.states[d] {
                            if may[d][s] {
                                image[p.next[d][s * p.vectors + v] as usize] = true;
                            }
                        }
                        may[d] = image;
                    }
                }
                list.extend(part);
            }
            text += &format!("SAME {}\n", list.len());
            for v in list {
                text += &format!("{}\n", v);
            }
        }
    }
    io::stdout().write_all(text.as_bytes()).unwrap();
}
