//! Plain Rust on the directory's bytes where they lie: nothing is decoded, and only the slots and sets that change are written. Where a block is held is asked
//! of its set.
use crate::typed::{hand_over, Answer, Order};
use std::array::from_fn;

type Directory = [u8; 194];

fn writes_through(d: &Directory, u: usize) -> bool {
    d[128] >> u & 1 == 1
}

fn steals(d: &Directory) -> bool {
    d[129] == 1
}

/// A slot's two bytes as one number: the state below, the block above.
fn slot(d: &Directory, n: usize) -> u16 {
    u16::from_le_bytes(d[2 * n..2 * n + 2].try_into().expect("two bytes"))
}

fn state(d: &Directory, n: usize) -> u8 {
    slot(d, n) as u8
}

fn block(d: &Directory, n: usize) -> u8 {
    (slot(d, n) >> 8) as u8
}

fn set(d: &mut Directory, n: usize, state: u8, block: u8) {
    d[2 * n..2 * n + 2].copy_from_slice(&(state as u16 | (block as u16) << 8).to_le_bytes());
}

/// The set of a block's holders, where it lies; a block is at most 63.
fn holders(d: &mut Directory, b: u8) -> &mut u8 {
    &mut d[130 + b as usize % 64]
}

fn held_by(d: &Directory, b: u8) -> u8 {
    d[130 + b as usize % 64]
}

/// The rules of the directory, sixteen slots of each unit at a time, with no jump; `LENT` also tests that bytes from outside spell slots and settings at all.
/// The two bytes of a slot are one number first, which the compiler reads with wide loads. An invalid slot's block becomes 255, which is no block.
fn sound<const LENT: bool>(d: &Directory) -> bool {
    let slots: [[u16; 16]; 4] = from_fn(|u| from_fn(|s| slot(d, 16 * u + s)));
    let states: [[u8; 16]; 4] = from_fn(|u| from_fn(|s| slots[u][s] as u8));
    let blocks: [[u8; 16]; 4] = from_fn(|u| from_fn(|s| (slots[u][s] >> 8) as u8));
    let (mut faults, mut most, mut modified) = ((LENT && (d[128] > 15 || d[129] > 1)) as u8, 0, 0);
    for s in 0..16 {
        let t: [u8; 4] = from_fn(|u| states[u][s]);
        let (mut b, mut valid, mut sets) = ([0u8; 4], 0u8, [0u8; 4]);
        for u in 0..4 {
            let invalid = if t[u] == 0 { 255 } else { 0 };
            if LENT {
                faults |= blocks[u][s] & invalid;
                most = t[u].max(most);
            }
            b[u] = blocks[u][s] | invalid;
            valid |= !invalid & 1 << u;
            for k in 0..4 {
                sets[k] |= if b[u] == (16 * k + s) as u8 { 1 << u } else { 0 };
            }
        }
        // Each valid slot is in the set of one of the slot's four blocks, and these sets are the kept ones.
        faults |= valid ^ (sets[0] | sets[1] | sets[2] | sets[3]);
        for k in 0..4 {
            faults |= sets[k] ^ d[130 + 16 * k + s];
        }
        // No two units have a block that is EM in one of them.
        for u in 1..4 {
            for v in 0..u {
                faults |= if b[u] == b[v] { (t[u] | t[v]) & 2 } else { 0 };
            }
        }
        modified |= (t[0] & 2) >> 1 | t[1] & 2 | (t[2] & 2) << 1 | (t[3] & 2) << 2;
    }
    faults == 0 && most <= 2 && modified & d[128] == 0
}

fn holds(d: &Directory, u: usize, b: u8) -> bool {
    held_by(d, b) >> u & 1 == 1
}

fn modified(d: &Directory, u: usize, b: u8) -> bool {
    holds(d, u, b) && state(d, 16 * u + b as usize % 16) == 2
}

/// The unit that has the block EM: it is the only one in the block's set.
fn modifier(d: &Directory, b: u8) -> Option<usize> {
    let first = held_by(d, b).trailing_zeros() as usize;
    (first < 4 && state(d, 16 * first + b as usize % 16) == 2).then_some(first)
}

/// No other unit than `u` holds the block any more.
fn expel(d: &mut Directory, u: usize, b: u8) {
    let mut others = held_by(d, b) & !(1 << u);
    *holders(d, b) &= 1 << u;
    while others != 0 {
        set(d, 16 * others.trailing_zeros() as usize + b as usize % 16, 0, 0);
        others &= others - 1;
    }
}

fn refusal<const LENT: bool>(d: Option<&Directory>, memory: &[u8], cache: &[u8], unit: u32, good: bool) -> u32 {
    if memory.len() != 2048 || cache.len() != 2048 {
        1
    } else if !d.is_some_and(sound::<LENT>) {
        2
    } else if unit > 3 {
        3
    } else if !good {
        4
    } else {
        0
    }
}

fn push(a: &mut Answer, unit: usize, command: u8, block: u8, retried: bool) {
    a.orders[a.count] = Order { unit: unit as u8, command, block, retried };
    a.count += 1;
}

fn empty() -> Answer {
    Answer { refusal: 0, value: 0, count: 0, orders: [Order { unit: 0, command: 0, block: 0, retried: false }; 4] }
}

fn copyback(memory: &mut [u8], cache: &[u8], u: usize, b: u8, a: &mut Answer) {
    let (from, to) = (512 * u + 32 * (b as usize % 16), 32 * b as usize);
    memory[to..to + 32].copy_from_slice(&cache[from..from + 32]);
    push(a, u, 3, b, false);
}

/// The order, retried where another unit has the block EM; a read or modified read that is retried is not given again with steal on.
fn request(d: &mut Directory, memory: &mut [u8], cache: &[u8], u: usize, b: u8, command: u8, a: &mut Answer) {
    if let Some(v) = modifier(d, b) {
        push(a, u, command, b, true);
        copyback(memory, cache, v, b, a);
        set(d, 16 * v + b as usize % 16, 1, b);
        if steals(d) && command != 4 {
            return;
        }
    }
    push(a, u, command, b, false);
}

fn fetch(d: &mut Directory, memory: &mut [u8], cache: &mut [u8], u: usize, b: u8, command: u8, a: &mut Answer) {
    let s = b as usize % 16;
    let (held, old) = (state(d, 16 * u + s), block(d, 16 * u + s));
    if held == 2 {
        copyback(memory, cache, u, old, a);
    }
    *holders(d, old) &= !(((held != 0) as u8) << u);
    request(d, memory, cache, u, b, command, a);
    let (from, to) = (32 * b as usize, 512 * u + 32 * s);
    cache[to..to + 32].copy_from_slice(&memory[from..from + 32]);
    set(d, 16 * u + s, 1, b);
    *holders(d, b) |= 1 << u;
}

/// An accepted load.
pub fn load(d: &mut Directory, memory: &mut [u8], cache: &mut [u8], u: usize, address: u32) -> Answer {
    let mut a = empty();
    let b = (address / 32) as u8;
    if !holds(d, u, b) {
        fetch(d, memory, cache, u, b, 0, &mut a);
    }
    let at = 512 * u + 32 * (b as usize % 16) + address as usize % 32;
    a.value = u32::from_be_bytes(cache[at..at + 4].try_into().expect("four bytes"));
    a
}

/// An accepted store of a write-through unit.
fn write_through(d: &mut Directory, memory: &mut [u8], cache: &mut [u8], u: usize, address: u32, value: u32) -> Answer {
    let mut a = empty();
    let (b, word) = ((address / 32) as u8, address as usize);
    let s = b as usize % 16;
    request(d, memory, cache, u, b, 4, &mut a);
    memory[word..word + 4].copy_from_slice(&value.to_be_bytes());
    if holds(d, u, b) {
        let at = 512 * u + 32 * s + address as usize % 32;
        cache[at..at + 4].copy_from_slice(&value.to_be_bytes());
    }
    expel(d, u, b);
    a
}

/// An accepted store.
pub fn store(d: &mut Directory, memory: &mut [u8], cache: &mut [u8], u: usize, address: u32, value: u32) -> Answer {
    if writes_through(d, u) {
        return write_through(d, memory, cache, u, address, value);
    }
    let mut a = empty();
    let b = (address / 32) as u8;
    let s = b as usize % 16;
    if !modified(d, u, b) {
        if holds(d, u, b) {
            push(&mut a, u, 2, b, false);
        } else {
            fetch(d, memory, cache, u, b, 1, &mut a);
        }
        expel(d, u, b);
        set(d, 16 * u + s, 2, b);
    }
    let at = 512 * u + 32 * s + address as usize % 32;
    cache[at..at + 4].copy_from_slice(&value.to_be_bytes());
    a
}

/// An accepted flush.
pub fn flush(d: &mut Directory, memory: &mut [u8], cache: &[u8], u: usize, b: u8) -> Answer {
    let mut a = empty();
    if holds(d, u, b) {
        if modified(d, u, b) {
            copyback(memory, cache, u, b, &mut a);
        }
        set(d, 16 * u + b as usize % 16, 0, 0);
        *holders(d, b) &= !(1 << u);
    }
    a
}

/// A load with its tests, on a directory of the right size: the machine's call with no boundary around it.
#[inline(never)]
pub fn tested_load(d: &mut Directory, memory: &mut [u8], cache: &mut [u8], unit: u32, address: u32) -> Answer {
    let number = refusal::<false>(Some(d), memory, cache, unit, address % 4 == 0 && address <= 2044);
    if number != 0 {
        return Answer { refusal: number, ..empty() };
    }
    load(d, memory, cache, unit as usize, address)
}

#[inline(never)]
pub fn tested_store(d: &mut Directory, memory: &mut [u8], cache: &mut [u8], unit: u32, address: u32, value: u32) -> Answer {
    let number = refusal::<false>(Some(d), memory, cache, unit, address % 4 == 0 && address <= 2044);
    if number != 0 {
        return Answer { refusal: number, ..empty() };
    }
    store(d, memory, cache, unit as usize, address, value)
}

#[inline(never)]
pub fn trainer_load(directory: &mut [u8], memory: &mut [u8], cache: &mut [u8], unit: u32, address: u32, answer: &mut [u32]) -> u32 {
    if answer.len() < 18 {
        return 9;
    }
    let mut d = <&mut Directory>::try_from(directory).ok();
    let number = refusal::<true>(d.as_deref(), memory, cache, unit, address % 4 == 0 && address <= 2044);
    if let (0, Some(d)) = (number, d.as_deref_mut()) {
        hand_over(&load(d, memory, cache, unit as usize, address), answer);
    }
    number
}

#[inline(never)]
pub fn trainer_store(directory: &mut [u8], memory: &mut [u8], cache: &mut [u8], unit: u32, address: u32, value: u32, answer: &mut [u32]) -> u32 {
    if answer.len() < 18 {
        return 9;
    }
    let mut d = <&mut Directory>::try_from(directory).ok();
    let number = refusal::<true>(d.as_deref(), memory, cache, unit, address % 4 == 0 && address <= 2044);
    if let (0, Some(d)) = (number, d.as_deref_mut()) {
        hand_over(&store(d, memory, cache, unit as usize, address, value), answer);
    }
    number
}

#[inline(never)]
pub fn trainer_flush(directory: &mut [u8], memory: &mut [u8], cache: &[u8], unit: u32, block: u32, answer: &mut [u32]) -> u32 {
    if answer.len() < 18 {
        return 9;
    }
    let mut d = <&mut Directory>::try_from(directory).ok();
    let number = refusal::<true>(d.as_deref(), memory, cache, unit, block <= 63);
    if let (0, Some(d)) = (number, d.as_deref_mut()) {
        hand_over(&flush(d, memory, cache, unit as usize, block as u8), answer);
    }
    number
}

/// Sizes and directory are tested once for the whole list, since an accepted access keeps the rules.
#[inline(never)]
pub fn trainer_batch(directory: &mut [u8], memory: &mut [u8], cache: &mut [u8], accesses: &[u32], values: &mut [u32], index: &mut u32, orders: &mut u32) -> u32 {
    (*index, *orders) = (0, 0);
    let list = accesses.chunks_exact(4);
    if list.len() > values.len().min(65_536) {
        return 9;
    }
    if !list.remainder().is_empty() {
        return 8;
    }
    let mut d = <&mut Directory>::try_from(directory).ok();
    let broken = refusal::<true>(d.as_deref(), memory, cache, 0, true);
    for (access, value) in list.zip(values) {
        let (kind, unit, target) = (access[0], access[1], access[2]);
        let good = if kind == 2 { target <= 63 } else { target % 4 == 0 && target <= 2044 };
        let d = match d.as_deref_mut() {
            _ if kind > 2 => return 7,
            Some(d) if broken == 0 => d,
            _ => return broken,
        };
        if unit > 3 {
            return 3;
        }
        if !good {
            return 4;
        }
        let a = match kind {
            0 => load(d, memory, cache, unit as usize, target),
            1 => store(d, memory, cache, unit as usize, target, access[3]),
            _ => flush(d, memory, cache, unit as usize, target as u8),
        };
        *value = a.value;
        *index += 1;
        *orders += a.count as u32;
    }
    0
}

#[inline(never)]
pub fn trainer_peek(directory: &[u8], memory: &[u8], cache: &[u8], block: u32, store: &mut u32, offset: &mut u32) -> u32 {
    let d = <&Directory>::try_from(directory).ok();
    let number = refusal::<true>(d, memory, cache, 0, block <= 63);
    if let (0, Some(d)) = (number, d) {
        (*store, *offset) = match modifier(d, block as u8) {
            Some(u) => (1, 512 * u as u32 + 32 * (block % 16)),
            None => (0, 32 * block),
        };
    }
    number
}

#[inline(never)]
pub fn trainer_holders(directory: &[u8], block: u32, set: &mut u32, count: &mut u32) -> u32 {
    let Some(d) = <&Directory>::try_from(directory).ok().filter(|d| sound::<true>(d)) else { return 2 };
    if block > 63 {
        return 4;
    }
    *set = held_by(d, block as u8).into();
    *count = set.count_ones();
    0
}
