//! Holds the proved interrupts, through their C interface, against the second implementation: every refusal, every number that is read,
//! every half that is written, that a refused call leaves the outputs as they were, and that what lies around them stays. The seeds are
//! fixed; a difference ends the run with a failure.
mod common;

use common::{code_of, same, Counts};
use outside::archive;
use outside::interrupt::{self, Interrupt};
use outside::random::Random;

/// What the outputs, and the places around them, have before a call.
const UNTOUCHED: u64 = 0xA5A5_A5A5_A5A5_A5A5;

/// The library's reading: its refusal, and target, agent and device with places around each.
fn proved_read(upper: u64, lower: u64) -> (u32, [u32; 7]) {
    let mut places = [UNTOUCHED as u32; 7];
    let [_, target, _, agent, _, device, _] = &mut places;
    (archive::read_interrupt(upper, lower, target, agent, device), places)
}

/// The library's writing: its refusal, and the halves with places around each.
fn proved_write(target: u32, agent: u32) -> (u32, [u64; 5]) {
    let mut places = [UNTOUCHED; 5];
    let [_, upper, _, lower, _] = &mut places;
    (archive::write_interrupt(target, agent, upper, lower), places)
}

fn outside_read(upper: u64, lower: u64) -> (u32, [u32; 7]) {
    let mut places = [UNTOUCHED as u32; 7];
    let read = interrupt::read(upper, lower);
    if let Ok(Interrupt { target, agent, device }) = read {
        (places[1], places[3], places[5]) = (target, agent, device as u32);
    }
    (code_of(&read), places)
}

fn outside_write(target: u32, agent: u32) -> (u32, [u64; 5]) {
    let mut places = [UNTOUCHED; 5];
    let written = interrupt::write(target, agent);
    if let Ok((upper, lower)) = written {
        (places[1], places[3]) = (upper, lower);
    }
    (code_of(&written), places)
}

/// One cycle read on both sides; where the library accepts it, the library alone writes it again.
fn read_both(counts: &mut Counts, upper: u64, lower: u64) {
    let (code, places) = proved_read(upper, lower);
    let context = (upper, lower);
    same("a cycle that was read", &context, (code, places), outside_read(upper, lower));
    counts.one("cycles read", code);
    if code == 0 {
        let (code, halves) = proved_write(places[1], places[3]);
        let cleared = |half: u64| half & !(0xFFFF << 48);
        same("a cycle that was read and written again", &context, (code, halves[1], halves[3]), (0, cleared(upper), cleared(lower)));
        counts.seen("cycles read and written again");
    }
}

/// One interrupt written on both sides; where the library accepts it, the library alone reads it again.
fn write_both(counts: &mut Counts, target: u32, agent: u32) {
    let (code, places) = proved_write(target, agent);
    let context = (target, agent);
    same("an interrupt that was written", &context, (code, places), outside_write(target, agent));
    counts.one("interrupts written", code);
    if code == 0 {
        let (code, numbers) = proved_read(places[1], places[3]);
        same("an interrupt that was written and read again", &context, (code, numbers[1], numbers[3]), (0, target, agent));
        counts.seen("interrupts written and read again");
    }
}

fn word(random: &mut Random) -> u64 {
    u64::from(random.next()) << 32 | u64::from(random.next())
}

/// A word in which each bit is 1 about once in 16.
fn sparse(random: &mut Random) -> u64 {
    word(random) & word(random) & word(random) & word(random)
}

/// Bits 63-48 at random.
fn reserved(random: &mut Random) -> u64 {
    word(random) << 48
}

/// Bits 47-0 of an interrupt, as the paper lists them.
fn half(target: u64, agent: u64) -> u64 {
    0x14 << 43 | target << 36 | agent << 31
}

fn random_half(random: &mut Random) -> u64 {
    half(random.below(32).into(), random.below(32).into())
}

/// Every pair up to 255, and numbers near the powers of two up to 2^32 with each other and with those that are accepted.
fn written(counts: &mut Counts) {
    for target in 0..=255 {
        for agent in 0..=255 {
            write_both(counts, target, agent);
        }
    }
    let mut edges: Vec<u32> = (0..32).flat_map(|bit| [(1 << bit) - 1, 1 << bit, (1 << bit) + 1]).collect();
    edges.extend([u32::MAX - 32, u32::MAX - 31, u32::MAX - 1, u32::MAX]);
    for &power in &[5, 8, 16, 31] {
        edges.extend((0..32).map(|number| (1 << power) + number));
    }
    for &edge in &edges {
        for &other in &edges {
            write_both(counts, edge, other);
        }
        for accepted in 0..32 {
            write_both(counts, edge, accepted);
            write_both(counts, accepted, edge);
        }
    }
    let mut random = Random::new(8_000_000);
    for _ in 0..300_000 {
        let (target, agent) = (random.next() >> random.below(32), random.next() >> random.below(32));
        write_both(counts, target, agent);
    }
}

/// All 1,024 interrupts, and each with every bit flipped in both halves and in either.
fn flipped(counts: &mut Counts) {
    let mut random = Random::new(9_000_000);
    for target in 0..32 {
        for agent in 0..32 {
            let half = half(target, agent);
            read_both(counts, half, half);
            let half = half | reserved(&mut random);
            read_both(counts, half, half);
            for bit in 0..64 {
                let other = half ^ 1 << bit;
                read_both(counts, other, other);
                read_both(counts, other, half);
                read_both(counts, half, other);
            }
        }
    }
}

/// Every value of bits 47-31, with bits 30-0 zero and with one of them 1.
fn upper_fields(counts: &mut Counts) {
    let mut random = Random::new(10_000_000);
    for fields in 0..1 << 17 {
        let half = fields << 31 | reserved(&mut random);
        read_both(counts, half, half);
        let half = half | 1 << random.below(31);
        read_both(counts, half, half);
    }
}

/// Equal halves and unequal ones, from interrupts to words that have nothing of one.
fn random_cycles(counts: &mut Counts) {
    let mut random = Random::new(11_000_000);
    for _ in 0..400_000 {
        let any = word(&mut random);
        read_both(counts, any, any);
        let transaction = any & !(0x1F << 43) | 0x14 << 43;
        read_both(counts, transaction, transaction);
        let near = random_half(&mut random) ^ sparse(&mut random);
        read_both(counts, near, near);
        let zero_fields = random_half(&mut random) | reserved(&mut random) | sparse(&mut random) & (0b11 << 41 | 0x7FFF_FFFF);
        read_both(counts, zero_fields, zero_fields);

        read_both(counts, any, word(&mut random));
        read_both(counts, any, zero_fields);
        read_both(counts, zero_fields, any);
        read_both(counts, random_half(&mut random), random_half(&mut random));
        for same_below in [any, near, zero_fields] {
            read_both(counts, same_below, same_below ^ reserved(&mut random));
        }
    }
}

fn main() {
    let mut counts = Counts::default();
    written(&mut counts);
    flipped(&mut counts);
    upper_fields(&mut counts);
    random_cycles(&mut counts);
    counts.expect(&[("cycles read", &[0, 7, 8, 17]), ("interrupts written", &[0, 8])]);
    println!("interrupts, compared with no difference:");
    counts.print();
}
