//! Plain Rust with the proved library's types: before a call the directory's bytes become slots and kinds of boards, both enums, steal, a bool, and the sets
//! of holders; after it these become bytes again.
//! The test of the directory is the branch-free one, which the compiler vectorises.
use std::array::from_fn;

#[derive(Clone, Copy)]
#[repr(u8)]
pub enum Slot {
    Invalid,
    Shared(u8),
    Modified(u8),
}
use Slot::*;

#[derive(Clone, Copy, PartialEq)]
pub enum Kind {
    Copyback,
    WriteThrough,
}

#[derive(Clone, Copy)]
pub struct Directory {
    slots: [Slot; 64],
    kinds: [Kind; 4],
    steal: bool,
    holders: [u8; 64],
}

impl Directory {
    /// All slots invalid, all sets of holders empty, copyback boards, and steal off.
    pub fn cold() -> Directory {
        Directory { slots: [Invalid; 64], kinds: [Kind::Copyback; 4], steal: false, holders: [0; 64] }
    }
}

#[derive(Clone, Copy)]
pub struct Order {
    pub unit: u8,
    pub command: u8,
    pub block: u8,
    pub retried: bool,
}

pub struct Answer {
    pub refusal: u32,
    pub value: u32,
    pub count: usize,
    pub orders: [Order; 4],
}

impl Answer {
    fn new() -> Answer {
        Answer { refusal: 0, value: 0, count: 0, orders: [Order { unit: 0, command: 0, block: 0, retried: false }; 4] }
    }

    fn refused(number: u32) -> Answer {
        Answer { refusal: number, ..Answer::new() }
    }

    fn push(&mut self, unit: usize, command: u8, block: u8, retried: bool) {
        self.orders[self.count] = Order { unit: unit as u8, command, block, retried };
        self.count += 1;
    }
}

fn rank(slot: Slot) -> u8 {
    match slot {
        Invalid => 0,
        Shared(_) => 1,
        Modified(_) => 2,
    }
}

/// 255, which is no block, for an invalid slot.
fn block(slot: Slot) -> u8 {
    match slot {
        Invalid => 255,
        Shared(b) | Modified(b) => b,
    }
}

/// The rules of the directory, sixteen slots of each unit at a time, with no jump. Rank and block of a slot are one number first, which the compiler reads
/// with wide loads; found by one match, they would cost a jump for each slot.
fn sound(d: &Directory) -> bool {
    let slots: [u16; 64] = from_fn(|n| {
        let b = block(d.slots[n]);
        rank(d.slots[n]) as u16 | (b as u16) << 8
    });
    let ranks: [u8; 64] = from_fn(|n| slots[n] as u8);
    let blocks: [u8; 64] = from_fn(|n| (slots[n] >> 8) as u8);
    let (mut faults, mut modified) = (0, 0);
    for s in 0..16 {
        let (r, b): ([u8; 4], [u8; 4]) = (from_fn(|u| ranks[16 * u + s]), from_fn(|u| blocks[16 * u + s]));
        let (mut valid, mut sets) = (0u8, [0u8; 4]);
        for u in 0..4 {
            valid |= if r[u] == 0 { 0 } else { 1 << u };
            for k in 0..4 {
                sets[k] |= if b[u] == (16 * k + s) as u8 { 1 << u } else { 0 };
            }
        }
        // Each valid slot is in the set of one of the slot's four blocks, and these sets are the kept ones.
        faults |= valid ^ (sets[0] | sets[1] | sets[2] | sets[3]);
        for k in 0..4 {
            faults |= sets[k] ^ d.holders[16 * k + s];
        }
        // No two units have a block that is EM in one of them.
        for u in 1..4 {
            for v in 0..u {
                faults |= if b[u] == b[v] { (r[u] | r[v]) & 2 } else { 0 };
            }
        }
        modified |= (r[0] & 2) >> 1 | r[1] & 2 | (r[2] & 2) << 1 | (r[3] & 2) << 2;
    }
    faults == 0 && modified & write_through_set(d) == 0
}

fn write_through_set(d: &Directory) -> u8 {
    let [w, x, y, z] = d.kinds.map(|kind| (kind == Kind::WriteThrough) as u8);
    w + 2 * x + 4 * y + 8 * z
}

fn holds(d: &Directory, u: usize, b: u8) -> bool {
    matches!(d.slots[16 * u + b as usize % 16], Shared(c) | Modified(c) if c == b)
}

fn modified(d: &Directory, u: usize, b: u8) -> bool {
    matches!(d.slots[16 * u + b as usize % 16], Modified(c) if c == b)
}

/// The number of refusal of a load or a store: tests 1, 2, 3, 4.
fn refusal(d: &Directory, memory: &[u8], cache: &[u8], unit: u32, good: bool) -> u32 {
    if memory.len() != 2048 || cache.len() != 2048 {
        1
    } else if !sound(d) {
        2
    } else if unit > 3 {
        3
    } else if !good {
        4
    } else {
        0
    }
}

fn copyback(memory: &mut [u8], cache: &[u8], u: usize, b: u8, a: &mut Answer) {
    let (from, to) = (512 * u + 32 * (b as usize % 16), 32 * b as usize);
    memory[to..to + 32].copy_from_slice(&cache[from..from + 32]);
    a.push(u, 3, b, false);
}

/// The order, retried where another unit has the block EM; a read or modified read that is retried is not given again with steal on.
fn request(d: &mut Directory, memory: &mut [u8], cache: &[u8], u: usize, b: u8, command: u8, a: &mut Answer) {
    for v in 0..4 {
        if v != u && modified(d, v, b) {
            a.push(u, command, b, true);
            copyback(memory, cache, v, b, a);
            d.slots[16 * v + b as usize % 16] = Shared(b);
            if d.steal && command != 4 {
                return;
            }
            break;
        }
    }
    a.push(u, command, b, false);
}

/// The unit does not hold the block any more, which it has in its slot.
fn release(d: &mut Directory, u: usize, b: u8) {
    d.slots[16 * u + b as usize % 16] = Invalid;
    d.holders[b as usize] &= !(1 << u);
}

/// No other unit than `u` holds the block any more.
fn expel(d: &mut Directory, u: usize, b: u8) {
    for v in 0..4 {
        if v != u && holds(d, v, b) {
            release(d, v, b);
        }
    }
}

fn fetch(d: &mut Directory, memory: &mut [u8], cache: &mut [u8], u: usize, b: u8, command: u8, a: &mut Answer) {
    let s = b as usize % 16;
    match d.slots[16 * u + s] {
        Invalid => {}
        Shared(old) => release(d, u, old),
        Modified(old) => {
            copyback(memory, cache, u, old, a);
            release(d, u, old);
        }
    }
    request(d, memory, cache, u, b, command, a);
    let (from, to) = (32 * b as usize, 512 * u + 32 * s);
    cache[to..to + 32].copy_from_slice(&memory[from..from + 32]);
    d.slots[16 * u + s] = Shared(b);
    d.holders[b as usize] |= 1 << u;
}

pub fn load(d: &mut Directory, memory: &mut [u8], cache: &mut [u8], unit: u32, address: u32) -> Answer {
    let number = refusal(d, memory, cache, unit, address % 4 == 0 && address <= 2044);
    if number != 0 {
        return Answer::refused(number);
    }
    let mut a = Answer::new();
    let (u, b) = (unit as usize, (address / 32) as u8);
    if !holds(d, u, b) {
        fetch(d, memory, cache, u, b, 0, &mut a);
    }
    let at = 512 * u + 32 * (b as usize % 16) + address as usize % 32;
    a.value = u32::from_be_bytes(cache[at..at + 4].try_into().expect("four bytes"));
    a
}

/// An accepted store of a write-through unit.
fn write_through(d: &mut Directory, memory: &mut [u8], cache: &mut [u8], u: usize, address: u32, value: u32) -> Answer {
    let mut a = Answer::new();
    let (b, word) = ((address / 32) as u8, address as usize);
    let s = b as usize % 16;
    request(d, memory, cache, u, b, 4, &mut a);
    memory[word..word + 4].copy_from_slice(&value.to_be_bytes());
    if holds(d, u, b) {
        let at = 512 * u + 32 * s + address as usize % 32;
        cache[at..at + 4].copy_from_slice(&value.to_be_bytes());
    }
    expel(d, u, b);
    a
}

pub fn store(d: &mut Directory, memory: &mut [u8], cache: &mut [u8], unit: u32, address: u32, value: u32) -> Answer {
    let number = refusal(d, memory, cache, unit, address % 4 == 0 && address <= 2044);
    if number != 0 {
        return Answer::refused(number);
    }
    let (u, b) = (unit as usize, (address / 32) as u8);
    if d.kinds[u] == Kind::WriteThrough {
        return write_through(d, memory, cache, u, address, value);
    }
    let mut a = Answer::new();
    let s = b as usize % 16;
    if !modified(d, u, b) {
        if holds(d, u, b) {
            a.push(u, 2, b, false);
        } else {
            fetch(d, memory, cache, u, b, 1, &mut a);
        }
        expel(d, u, b);
        d.slots[16 * u + s] = Modified(b);
    }
    let at = 512 * u + 32 * s + address as usize % 32;
    cache[at..at + 4].copy_from_slice(&value.to_be_bytes());
    a
}

pub fn flush(d: &mut Directory, memory: &mut [u8], cache: &[u8], unit: u32, block: u32) -> Answer {
    let number = refusal(d, memory, cache, unit, block <= 63);
    if number != 0 {
        return Answer::refused(number);
    }
    let mut a = Answer::new();
    let (u, b) = (unit as usize, block as u8);
    if holds(d, u, b) {
        if modified(d, u, b) {
            copyback(memory, cache, u, b, &mut a);
        }
        release(d, u, b);
    }
    a
}

/// The machine's call with no boundary around it.
#[inline(never)]
pub fn tested_load(d: &mut Directory, memory: &mut [u8], cache: &mut [u8], unit: u32, address: u32) -> Answer {
    load(d, memory, cache, unit, address)
}

#[inline(never)]
pub fn tested_store(d: &mut Directory, memory: &mut [u8], cache: &mut [u8], unit: u32, address: u32, value: u32) -> Answer {
    store(d, memory, cache, unit, address, value)
}

/// Bytes that spell no directory become slots that no rule allows.
fn decode(bytes: &[u8]) -> Directory {
    let mut d = Directory { slots: [Shared(255); 64], kinds: [Kind::Copyback; 4], steal: false, holders: [0; 64] };
    let Ok(bytes) = <&[u8; 194]>::try_from(bytes) else { return d };
    if bytes[128] > 15 || bytes[129] > 1 {
        return d;
    }
    let pairs: [u16; 64] = from_fn(|n| u16::from_le_bytes([bytes[2 * n], bytes[2 * n + 1]]));
    for n in 0..64 {
        // The block first, and then a choice of constants: the compiler makes this loop free of branches.
        let state = pairs[n] as u8;
        let b = if state == 1 || state == 2 { (pairs[n] >> 8) as u8 } else { 255 };
        d.slots[n] = if state == 2 {
            Modified(b)
        } else if pairs[n] == 0 {
            Invalid
        } else {
            Shared(b)
        };
    }
    d.kinds = [0, 1, 2, 3].map(|u| if bytes[128] >> u & 1 == 1 { Kind::WriteThrough } else { Kind::Copyback });
    d.steal = bytes[129] == 1;
    d.holders.copy_from_slice(&bytes[130..]);
    d
}

fn encode(d: &Directory, bytes: &mut [u8]) {
    let bytes: &mut [u8; 194] = bytes.try_into().expect("a sound directory has 194 bytes");
    for n in 0..64 {
        let (state, block) = match d.slots[n] {
            Invalid => (0, 0),
            Shared(b) => (1, b),
            Modified(b) => (2, b),
        };
        bytes[2 * n] = state;
        bytes[2 * n + 1] = block;
    }
    bytes[128] = write_through_set(d);
    bytes[129] = d.steal as u8;
    bytes[130..].copy_from_slice(&d.holders);
}

pub fn hand_over(a: &Answer, answer: &mut [u32]) {
    answer[0] = a.value;
    answer[1] = a.count as u32;
    for (o, place) in a.orders.iter().zip(answer[2..18].chunks_exact_mut(4)) {
        place.copy_from_slice(&[o.unit as u32, o.command as u32, o.block as u32, o.retried as u32]);
    }
}

fn finish(d: &Directory, a: &Answer, directory: &mut [u8], answer: &mut [u32]) -> u32 {
    if a.refusal == 0 {
        encode(d, directory);
        hand_over(a, answer);
    }
    a.refusal
}

#[inline(never)]
pub fn trainer_load(directory: &mut [u8], memory: &mut [u8], cache: &mut [u8], unit: u32, address: u32, answer: &mut [u32]) -> u32 {
    if answer.len() < 18 {
        return 9;
    }
    let mut d = decode(directory);
    let a = load(&mut d, memory, cache, unit, address);
    finish(&d, &a, directory, answer)
}

#[inline(never)]
pub fn trainer_store(directory: &mut [u8], memory: &mut [u8], cache: &mut [u8], unit: u32, address: u32, value: u32, answer: &mut [u32]) -> u32 {
    if answer.len() < 18 {
        return 9;
    }
    let mut d = decode(directory);
    let a = store(&mut d, memory, cache, unit, address, value);
    finish(&d, &a, directory, answer)
}

#[inline(never)]
pub fn trainer_flush(directory: &mut [u8], memory: &mut [u8], cache: &[u8], unit: u32, block: u32, answer: &mut [u32]) -> u32 {
    if answer.len() < 18 {
        return 9;
    }
    let mut d = decode(directory);
    let a = flush(&mut d, memory, cache, unit, block);
    finish(&d, &a, directory, answer)
}

/// The directory becomes slots before the first access of the list, and bytes after the last one; each access tests it.
#[inline(never)]
pub fn trainer_batch(directory: &mut [u8], memory: &mut [u8], cache: &mut [u8], accesses: &[u32], values: &mut [u32], index: &mut u32, orders: &mut u32) -> u32 {
    (*index, *orders) = (0, 0);
    let list = accesses.chunks_exact(4);
    if list.len() > values.len().min(65_536) {
        return 9;
    }
    if !list.remainder().is_empty() {
        return 8;
    }
    let (mut d, mut number) = (decode(directory), 0);
    for (access, value) in list.zip(values) {
        let a = match access[0] {
            0 => load(&mut d, memory, cache, access[1], access[2]),
            1 => store(&mut d, memory, cache, access[1], access[2], access[3]),
            2 => flush(&mut d, memory, cache, access[1], access[2]),
            _ => Answer::refused(7),
        };
        number = a.refusal;
        if number != 0 {
            break;
        }
        *value = a.value;
        *index += 1;
        *orders += a.count as u32;
    }
    if *index > 0 {
        encode(&d, directory);
    }
    number
}

#[inline(never)]
pub fn trainer_peek(directory: &[u8], memory: &[u8], cache: &[u8], block: u32, store: &mut u32, offset: &mut u32) -> u32 {
    let d = decode(directory);
    let number = refusal(&d, memory, cache, 0, block <= 63);
    if number == 0 {
        let b = block as u8;
        (*store, *offset) = match (0..4).find(|&u| modified(&d, u, b)) {
            Some(u) => (1, 512 * u as u32 + 32 * (block % 16)),
            None => (0, 32 * block),
        };
    }
    number
}

#[inline(never)]
pub fn trainer_holders(directory: &[u8], block: u32, set: &mut u32, count: &mut u32) -> u32 {
    let d = decode(directory);
    if !sound(&d) {
        return 2;
    }
    let Some(&units) = d.holders.get(block as usize) else { return 4 };
    *set = units.into();
    *count = units.count_ones();
    0
}
