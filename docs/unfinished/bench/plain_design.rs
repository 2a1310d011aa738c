// An accepted image, read and tabulated in plain Rust without proofs and without refusals: one sweep over the cells for each clock.
pub struct Design {
    pub inputs: usize,
    pub latches: usize,
    pub outputs: usize,
    cells: Vec<[usize; 3]>,
    // Data, enable and clear net of each flip-flop.
    flip_flops: Vec<[usize; 3]>,
    shown: Vec<usize>,
}

struct Bits<'a> {
    bytes: &'a [u8],
    at: usize,
}

impl Bits<'_> {
    fn take(&mut self, width: usize) -> usize {
        (0..width).fold(0, |n, _| {
            let bit = self.bytes[self.at / 8] >> (7 - self.at % 8) & 1;
            self.at += 1;
            n * 2 + bit as usize
        })
    }
}

// The design at the front of the bytes, and how many bytes it takes.
pub fn read(bytes: &[u8]) -> (Design, usize) {
    let mut bits = Bits { bytes, at: 0 };
    let (version, inputs, latches, outputs, count) = (bits.take(4), bits.take(4), bits.take(4), bits.take(4), bits.take(9));
    let cells = (0..count).map(|_| [bits.take(3), bits.take(9), bits.take(9)]).collect();
    let flip_flop = |_| match version {
        1 => [bits.take(9), 1, 0],
        _ => [bits.take(9), bits.take(9), bits.take(9)],
    };
    let flip_flops = (0..latches).map(flip_flop).collect();
    let shown = (0..outputs).map(|_| bits.take(9)).collect();
    let design = Design { inputs, latches, outputs, cells, flip_flops, shown };
    (design, (bits.at + 7) / 8)
}

// Which cells lead to a flip-flop or an output.
fn kept(d: &Design) -> Vec<bool> {
    let base = 2 + d.inputs + d.latches;
    let mut kept = vec![false; d.cells.len()];
    let mut nets: Vec<usize> = d.flip_flops.iter().flatten().chain(&d.shown).copied().collect();
    while let Some(net) = nets.pop() {
        if net >= base && !kept[net - base] {
            kept[net - base] = true;
            nets.extend(&d.cells[net - base][1..]);
        }
    }
    kept
}

// An order in which every kept cell stands behind those that it reads.
fn order(d: &Design) -> Vec<usize> {
    let base = 2 + d.inputs + d.latches;
    let mut placed: Vec<bool> = kept(d).iter().map(|kept| !kept).collect();
    let mut order = Vec::new();
    while placed.contains(&false) {
        let ready = |net: usize| net < base || placed[net - base];
        let next = (0..d.cells.len()).find(|&i| !placed[i] && ready(d.cells[i][1]) && ready(d.cells[i][2]));
        let next = next.expect("a loop of cells that leads to a flip-flop or an output");
        placed[next] = true;
        order.push(next);
    }
    order
}

fn gate(kind: usize, a: u8, b: u8) -> u8 {
    match kind {
        0 => a,
        1 => 1 - a,
        2 => a & b,
        3 => a | b,
        4 => a ^ b,
        5 => 1 - (a & b),
        6 => 1 - (a | b),
        _ => 1 - (a ^ b),
    }
}

// Next states and outputs, entry s * V + v.
pub fn tabulate(d: &Design) -> (Vec<u8>, Vec<u8>) {
    let base = 2 + d.inputs + d.latches;
    let order = order(d);
    let mut nets = vec![0u8; base + d.cells.len()];
    let (mut next, mut out) = (Vec::new(), Vec::new());
    for s in 0..1usize << d.latches {
        for v in 0..1usize << d.inputs {
            nets[1] = 1;
            for k in 0..d.inputs {
                nets[2 + k] = (v >> (d.inputs - 1 - k) & 1) as u8;
            }
            for k in 0..d.latches {
                nets[2 + d.inputs + k] = (s >> (d.latches - 1 - k) & 1) as u8;
            }
            for &i in &order {
                let [kind, a, b] = d.cells[i];
                nets[base + i] = gate(kind, nets[a], nets[b]);
            }
            next.push(d.flip_flops.iter().enumerate().fold(0, |n, (k, flip_flop)| {
                let [data, enable, clear] = flip_flop.map(|net| nets[net]);
                let held = nets[2 + d.inputs + k];
                n * 2 + (1 - clear) * (if enable == 1 { data } else { held })
            }));
            out.push(d.shown.iter().fold(0, |n, &net| n * 2 + nets[net]));
        }
    }
    (next, out)
}
