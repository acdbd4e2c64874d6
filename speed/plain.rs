// The plain side: the same operations as one writes them in Rust for speed, with references and nothing proved.
// It follows the paper and not the proved code.

use crate::proved::{FOUND, MPU, REQUEST};

// ---- the device

#[derive(Clone, Copy, Default)]
struct Slot {
    rbar: u32,
    rasr: u32,
}

#[derive(Clone, Copy, Default)]
struct Mpu {
    slots: [Slot; 8],
    control: u32,
}

/// Each by its case; none of them where the held control is refused.
#[derive(Clone, Copy)]
enum Answer {
    Private = 1,
    Unchecked = 2,
    Undefined = 3,
    Permitted = 4,
    Denied = 5,
    Refused = 6,
}

/// By AP: bits 0 and 1 the privileged right to read and to write, bits 4 and 5 the unprivileged, bit 7 undefined.
const RIGHTS: [u8; 8] = [0x00, 0x03, 0x13, 0x33, 0x80, 0x01, 0x11, 0x80];

fn allowed(control: u32) -> bool {
    matches!(control, 0 | 1 | 4 | 5)
}

impl Mpu {
    fn of(words: &[u32]) -> Mpu {
        let mut m = Mpu { control: words[MPU - 1], ..Mpu::default() };
        for (slot, pair) in m.slots.iter_mut().zip(words.chunks_exact(2)) {
            *slot = Slot { rbar: pair[0], rasr: pair[1] };
        }
        m
    }

    fn decide(&self, address: u32, write: bool, privileged: bool) -> Answer {
        if !allowed(self.control) {
            return Answer::Refused;
        }
        if (0xE000_0000..=0xE00F_FFFF).contains(&address) {
            return Answer::Private;
        }
        if self.control & 1 == 0 {
            return Answer::Unchecked;
        }
        if self.slots.iter().any(Slot::bad) {
            return Answer::Undefined;
        }
        match self.slots.iter().rev().find(|s| s.matches(address)) {
            Some(s) => {
                let rights = RIGHTS[(s.rasr >> 24 & 7) as usize];
                if rights & 0x80 != 0 {
                    return Answer::Undefined;
                }
                let right = if privileged { rights } else { rights >> 4 };
                if right >> write as u8 & 1 == 1 {
                    Answer::Permitted
                } else {
                    Answer::Denied
                }
            }
            None if privileged && self.control & 4 != 0 => Answer::Permitted,
            None => Answer::Denied,
        }
    }

    /// The number of the refusal, 0 where the write was made.
    fn write(&mut self, w: &Write) -> u32 {
        if !allowed(self.control) {
            return 12;
        }
        if let Some(slot) = self.slots.get_mut(w.rnr as usize) {
            if w.rbar & 16 != 0 {
                return 11;
            }
            *slot = Slot { rbar: w.rbar, rasr: w.rasr };
            return 0;
        }
        if w.rnr != u32::MAX {
            return 10;
        }
        if !allowed(w.rasr) {
            return 12;
        }
        self.control = w.rasr;
        0
    }
}

impl Slot {
    fn bad(&self) -> bool {
        self.rasr & 1 == 1 && ((self.rasr >> 1 & 31) < 4 || self.rasr & 0xFF00 != 0)
    }

    fn matches(&self, address: u32) -> bool {
        self.rasr & 1 == 1 && (address ^ self.rbar) as u64 >> ((self.rasr >> 1 & 31) + 1) == 0
    }
}

/// The number of the refusal, 0 where the accesses are answered.
pub fn decide(mpu: &[u32], asks: &[u32], cases: &mut [u32]) -> u32 {
    let m = Mpu::of(mpu);
    for (case, ask) in cases.iter_mut().zip(asks.chunks_exact(2)) {
        *case = m.decide(ask[0], ask[1] & 1 == 1, ask[1] & 2 != 0) as u32;
    }
    if allowed(m.control) {
        0
    } else {
        12
    }
}

// ---- regions

#[derive(Clone, Copy, Default)]
struct Range {
    base: u32,
    size: u32,
}

impl Range {
    fn end(&self) -> u64 {
        self.base as u64 + self.size as u64
    }

    fn meets(&self, other: &Range) -> bool {
        (self.base as u64) < other.end() && (other.base as u64) < self.end()
    }

    /// The number of the first reason why the MPU cannot hold it; 0 where it can.
    fn refusal(&self) -> u32 {
        if !self.size.is_power_of_two() {
            2
        } else if self.size < 32 {
            3
        } else if self.base & (self.size - 1) != 0 {
            4
        } else if self.end() > u32::MAX as u64 {
            5
        } else {
            0
        }
    }
}

fn range(record: &[u32]) -> Range {
    Range { base: record[0], size: record[1] }
}

/// The number, and the places that it names.
fn list(words: &[u32], count: usize) -> [u32; FOUND] {
    if words.len() / 3 < count {
        return [8, 0, 0];
    }
    let records = words.chunks_exact(3).take(count).map(range);
    for (i, r) in records.clone().enumerate() {
        let no = r.refusal();
        if no != 0 {
            return [no, i as u32, 0];
        }
    }
    let mut rest = records.enumerate();
    while let Some((i, a)) = rest.next() {
        if let Some((j, _)) = rest.clone().find(|(_, b)| a.meets(b)) {
            return [6, i as u32, j as u32];
        }
    }
    [0; FOUND]
}

pub fn lists(words: &[u32], count: u32, answers: &mut [u32]) {
    let count = count as usize;
    for (answer, words) in answers.chunks_exact_mut(FOUND).zip(words.chunks_exact(3 * count)) {
        answer.copy_from_slice(&list(words, count));
    }
}

// ---- the table

#[derive(Clone, Copy, Default)]
struct Entry {
    range: Range,
    enabled: bool,
    writable: bool,
}

#[derive(Default)]
struct Table {
    parts: [[Entry; 8]; 4],
}

fn lawful(part: &[Entry; 8]) -> bool {
    part.iter()
        .enumerate()
        .all(|(i, e)| !e.enabled || e.range.refusal() == 0 && !part[i + 1..].iter().any(|f| f.enabled && f.range.meets(&e.range)))
}

impl Table {
    fn of(requests: &[u32]) -> Table {
        let mut t = Table::default();
        for q in requests.chunks_exact(REQUEST) {
            t.add(q);
        }
        t
    }

    fn lawful(&self) -> bool {
        self.parts.iter().all(lawful)
    }

    /// The number of the refusal, 0 where the request was granted. Any table may be given, so it is judged each time.
    fn add(&mut self, q: &[u32]) -> u32 {
        let range = Range { base: q[1], size: q[2] };
        if q[0] >= 4 {
            return 1;
        }
        if !self.lawful() {
            return 9;
        }
        let no = range.refusal();
        if no != 0 {
            return no;
        }
        let part = &mut self.parts[q[0] as usize];
        if part.iter().any(|e| e.enabled && e.range.meets(&range)) {
            return 6;
        }
        match part.iter_mut().find(|e| !e.enabled) {
            Some(e) => *e = Entry { range, enabled: true, writable: q[3] != 0 },
            None => return 7,
        }
        0
    }
}

pub fn fill(requests: &[u32], numbers: &mut [u32]) {
    let mut t = Table::default();
    for (number, q) in numbers.iter_mut().zip(requests.chunks_exact(REQUEST)) {
        *number = t.add(q);
    }
}

// ---- the switch

#[derive(Clone, Copy, Default)]
struct Write {
    rnr: u32,
    rbar: u32,
    rasr: u32,
}

#[derive(Default)]
struct Switch {
    mpu: Mpu,
    log: [Write; 10],
}

fn control(value: u32) -> Write {
    Write { rnr: u32::MAX, rbar: 0, rasr: value }
}

impl Entry {
    fn write(&self, slot: u32) -> Write {
        if !self.enabled {
            return Write { rnr: slot, rbar: 0, rasr: 0 };
        }
        let ap = if self.writable { 3 } else { 6 };
        Write { rnr: slot, rbar: self.range.base, rasr: 1 | (self.range.size.trailing_zeros() - 1) << 1 | ap << 24 }
    }
}

impl Switch {
    /// All ten writes, each logged; the number of the refusal, 0 where the switch was made.
    fn to(&mut self, t: &Table, part: u32) -> u32 {
        self.log = [Write::default(); 10];
        if part >= 4 {
            return 1;
        }
        if !t.lawful() {
            return 9;
        }
        if !allowed(self.mpu.control) {
            return 12;
        }
        let mut writes = [control(0); 10];
        for (s, e) in t.parts[part as usize].iter().enumerate() {
            writes[s + 1] = e.write(s as u32);
        }
        writes[9] = control(1);
        for (logged, w) in self.log.iter_mut().zip(&writes) {
            if self.mpu.write(w) != 0 {
                break;
            }
            *logged = *w;
        }
        0
    }
}

pub fn switch(requests: &[u32], mpu: &[u32], parts: &[u32], numbers: &mut [u32], last: &mut [u32]) {
    let t = Table::of(requests);
    let mut s = Switch { mpu: Mpu::of(mpu), ..Switch::default() };
    for (number, &part) in numbers.iter_mut().zip(parts) {
        *number = s.to(&t, part);
    }
    for (out, slot) in last.chunks_exact_mut(2).zip(&s.mpu.slots) {
        out.copy_from_slice(&[slot.rbar, slot.rasr]);
    }
    last[MPU - 1] = s.mpu.control;
    for (out, w) in last[MPU..].chunks_exact_mut(3).zip(&s.log) {
        out.copy_from_slice(&[w.rnr, w.rbar, w.rasr]);
    }
}
