// How fast is the proved code beside plain Rust? Both sides get the same inputs in the same run, and must give the same answers on each.
// Prints a line an operation: the nanoseconds of one on each side, best of the rounds, and proved : plain.

mod plain;
mod proved;

use proved::{FOUND, MPU, REQUEST, SWITCH};
use std::hint::black_box;
use std::process::exit;
use std::time::{Duration, Instant};

const ROUNDS: usize = 40;
const TABLES: usize = 64;
const ACCESSES: usize = 16384;
const FILLS: usize = 256;
const SWITCHES: usize = 256;
const RECORDS: usize = 1 << 17;

/// Numbers that are the same in each run.
struct Numbers(u64);

impl Numbers {
    fn next(&mut self) -> u32 {
        self.0 ^= self.0 << 13;
        self.0 ^= self.0 >> 7;
        self.0 ^= self.0 << 17;
        (self.0 >> 16) as u32
    }

    fn below(&mut self, n: u32) -> u32 {
        self.next() % n
    }

    fn one_in(&mut self, n: u32) -> bool {
        self.below(n) == 0
    }

    fn shuffle<T>(&mut self, xs: &mut [T]) {
        for i in (1..xs.len()).rev() {
            xs.swap(i, self.below(i as u32 + 1) as usize);
        }
    }
}

/// n sound regions, no two of which overlap, in any order.
fn apart(r: &mut Numbers, n: u32) -> Vec<(u32, u32)> {
    let cell = 31 - n.next_power_of_two().trailing_zeros();
    let mut regions: Vec<_> = (0..n)
        .map(|i| {
            let size = 1 << (5 + r.below(cell - 4));
            ((i << cell) + r.below((1 << cell) / size) * size, size)
        })
        .collect();
    r.shuffle(&mut regions);
    regions
}

fn unsound(r: &mut Numbers) -> (u32, u32) {
    match r.below(4) {
        0 => (r.next(), 3 << r.below(30)),
        1 => (r.next() & !31, 1 << r.below(5)),
        2 => (r.next() | 1, 1 << (5 + r.below(20))),
        _ => (u32::MAX - 31, 32),
    }
}

/// Requests until every partition is full and some more: a third is refused, each refusal among them.
fn requests(r: &mut Numbers) -> Vec<u32> {
    let mut asked: Vec<_> = (0..4).flat_map(|part| apart(r, 8).into_iter().map(move |region| (part, region))).collect();
    r.shuffle(&mut asked);
    for _ in 0..8 {
        let twice = asked[r.below(asked.len() as u32) as usize];
        asked.insert(r.below(asked.len() as u32) as usize, twice);
        let bad = (r.below(4), unsound(r));
        asked.insert(r.below(asked.len() as u32) as usize, bad);
    }
    asked.push((4 + r.below(9), (0, 32)));
    asked.extend((0..4).map(|part| (part, (1 << 31, 1024))));
    asked.iter().flat_map(|&(part, (base, size))| [part, base, size, (base ^ size) >> 7 & 1]).collect()
}

/// The accesses to an MPU: in its regions, at their edges, on the private bus, anywhere.
fn accesses(r: &mut Numbers, mpu: &[u32]) -> Vec<u32> {
    (0..ACCESSES)
        .flat_map(|_| {
            let slot = r.below(8) as usize;
            let (rbar, rasr) = (mpu[2 * slot], mpu[2 * slot + 1]);
            let size = 2u64 << (rasr >> 1 & 31);
            let address = match r.below(16) {
                0 => 0xE000_0000 + r.below(1 << 20),
                1 => rbar.wrapping_sub(1),
                2 => rbar.wrapping_add(size as u32),
                3..=5 => r.next(),
                _ => rbar.wrapping_add((r.next() as u64 % size) as u32),
            };
            [address, r.below(4)]
        })
        .collect()
}

/// Lists of records: sound and apart, so that each pair is compared; where `mixed`, every second one has a fault.
fn lists(r: &mut Numbers, count: u32, mixed: bool) -> Vec<u32> {
    let mut words = Vec::new();
    for i in 0..RECORDS as u32 / count {
        let mut regions = apart(r, count);
        let (at, from) = (r.below(count) as usize, r.below(count) as usize);
        match i % 4 {
            1 if mixed => regions[at] = unsound(r),
            3 if mixed => regions[at] = regions[from],
            _ => {}
        }
        words.extend(regions.iter().flat_map(|&(base, size)| [base, size, r.next()]));
    }
    words
}

/// Runs both sides in turn, over all the inputs; each leaves its answers in its own `out`.
fn compare<O: PartialEq>(name: &str, count: usize, mut out: [O; 2], mut run: impl FnMut(bool, &mut O)) -> O {
    let mut best = [Duration::MAX; 2];
    for _ in 0..ROUNDS {
        for side in 0..2 {
            let start = Instant::now();
            run(side == 0, black_box(&mut out[side]));
            best[side] = best[side].min(start.elapsed());
        }
    }
    if out[0] != out[1] {
        differ(name);
    }
    let [proved, plain] = best.map(|b| b.as_nanos() as f64 / count as f64);
    println!("{name:<34} {count:>8} {proved:>10.1} {plain:>10.1} {:>8.2}", proved / plain);
    let [answers, _] = out;
    answers
}

fn differ(name: &str) -> ! {
    eprintln!("{name}: the two sides differ");
    exit(1)
}

/// Holds that the inputs are what their names say.
fn expect(holds: bool, what: &str) {
    if !holds {
        eprintln!("these inputs do not show it: {what}");
        exit(1)
    }
}

fn main() {
    let mut r = Numbers(0x9E37_79B9_7F4A_7C15);
    println!("{:<34} {:>8} {:>10} {:>10} {:>8}", "operation", "count", "proved ns", "plain ns", "ratio");

    // ---- builder requests until full
    let fills: Vec<_> = (0..FILLS).map(|_| requests(&mut r)).collect();
    let each = fills[0].len() / REQUEST;
    let side = || vec![vec![0; each]; FILLS];
    let numbers = compare("builder requests", FILLS * each, [side(), side()], |proved, out| {
        let fill = if proved { proved::fill } else { plain::fill };
        fills.iter().zip(out).for_each(|(requests, numbers)| fill(requests, numbers));
    });
    expect(numbers.iter().all(|n| n.iter().filter(|&&no| no == 0).count() == 32), "each table is full");
    expect((0..=7).all(|no| numbers.concat().contains(&no)), "each refusal of the builder");

    // ---- whole switches, of MPUs with any allowed control
    let tables: Vec<_> = (0..TABLES).map(|i| fills[i][..REQUEST * (each - i % 40)].to_vec()).collect();
    let held: Vec<_> = (0..TABLES).map(|i| [vec![0; MPU - 1], vec![[0, 1, 4, 5][i % 4]]].concat()).collect();
    let parts: Vec<u32> = (0..SWITCHES).map(|_| if r.one_in(32) { 4 + r.below(9) } else { r.below(4) }).collect();
    let side = || vec![(vec![0; SWITCHES], vec![0; SWITCH]); TABLES];
    let switched = compare("whole switches", TABLES * SWITCHES, [side(), side()], |proved, out| {
        let switch = if proved { proved::switch } else { plain::switch };
        for (i, (numbers, last)) in out.iter_mut().enumerate() {
            switch(&tables[i], &held[i], &parts, numbers, last);
        }
    });
    each_switch(&tables, &held, &parts);

    // ---- byte decisions, by MPUs after real switches, one in eight of them altered by hand
    let mut mpus: Vec<_> = switched.iter().map(|(_, last)| last[..MPU].to_vec()).collect();
    for (i, mpu) in mpus.iter_mut().enumerate() {
        match i % 32 {
            3 => mpu[MPU - 1] = 0,
            11 => mpu[MPU - 1] = 5,
            19 => mpu[1] |= 1 << 8,
            27 => mpu[MPU - 1] = 2,
            _ => {}
        }
    }
    let asks: Vec<_> = mpus.iter().map(|mpu| accesses(&mut r, mpu)).collect();
    let side = || vec![(0, vec![0; ACCESSES]); TABLES];
    let answers = compare("byte decisions", TABLES * ACCESSES, [side(), side()], |proved, out| {
        let decide = if proved { proved::decide } else { plain::decide };
        for (i, (number, cases)) in out.iter_mut().enumerate() {
            *number = decide(&mpus[i], &asks[i], cases);
        }
    });
    expect([0, 12].iter().all(|no| answers.iter().any(|(number, _)| number == no)), "both numbers of the MPU");
    expect((1..=6).all(|case| answers.iter().any(|(_, cases)| cases.contains(&case))), "each case of the MPU");

    // ---- region lists
    for (count, mixed) in [(8, false), (8, true), (64, false), (64, true)] {
        let words = lists(&mut r, count, mixed);
        let n = RECORDS / count as usize;
        let name = format!("list checks, {count} records, {}", if mixed { "half bad" } else { "all valid" });
        let found = compare(&name, n, [vec![0; FOUND * n], vec![0; FOUND * n]], |proved, out| {
            let lists = if proved { proved::lists } else { plain::lists };
            lists(&words, count, out);
        });
        expect(mixed != found.iter().all(|&no| no == 0), &name);
    }
}

/// The timed run shows the last MPU and log of a table; this one shows them after each switch.
fn each_switch(tables: &[Vec<u32>], held: &[Vec<u32>], parts: &[u32]) {
    for (table, mpu) in tables.iter().zip(held) {
        let mut mpu = mpu.clone();
        for part in parts.chunks(1) {
            let mut out = [([0], [0; SWITCH]); 2];
            proved::switch(table, &mpu, part, &mut out[0].0, &mut out[0].1);
            plain::switch(table, &mpu, part, &mut out[1].0, &mut out[1].1);
            if out[0] != out[1] {
                differ("whole switches, one by one");
            }
            mpu.copy_from_slice(&out[0].1[..MPU]);
        }
    }
}
