//! Holds the proved bus handler against the second implementation: every call that is not refused, calls on any numbers, lists of calls, each on what the
//! last left, and that each number of refusal was met.
mod common;

use common::{code_of, same, Counts};
use outside::archive;
use outside::handler::{Handler, Line};
use outside::random::Random;

const UNTOUCHED: u32 = 0xA5A5_A5A5;
const NUMBERS: usize = 3;

fn numbers(handler: &Handler) -> [u32; NUMBERS] {
    [handler.last_high, handler.last_low, handler.owner.unwrap_or(8)]
}

/// A grant as the library tells it.
fn grant_told(granted: Option<(Line, u32)>) -> (u32, u32) {
    match granted {
        Some((Line::High, unit)) => (1, unit),
        Some((Line::Low, unit)) => (2, unit),
        None => (0, 0),
    }
}

/// One call both ways on the numbers in `lent`, which it leaves as the call did.
fn call(counts: &mut Counts, lent: &mut Vec<u32>, high: u32, low: u32, lck: u32) {
    let before = lent.clone();
    let mut left = before.clone();
    let expected = if before.len() < NUMBERS {
        Err(9)
    } else if lck > 1 {
        Err(8)
    } else {
        let mut handler = Handler { last_high: before[0], last_low: before[1], owner: (before[2] != 8).then_some(before[2]) };
        let granted = handler.call(high, low, lck == 1);
        if granted.is_ok() {
            left[..NUMBERS].copy_from_slice(&numbers(&handler));
        }
        granted
    };
    let told = expected.map_or((UNTOUCHED, UNTOUCHED), grant_told);
    let (mut grant, mut unit) = (UNTOUCHED, UNTOUCHED);
    let number = archive::arbitrate(lent, high, low, lck, &mut grant, &mut unit);
    same("a call of the handler", &(&before, high, low, lck), (number, (grant, unit), &*lent), (code_of(&expected), told, &left));
    counts.one("calls of the handler", number);
}

/// Every state, every pair of sets, LCK asserted and not.
fn every_call(counts: &mut Counts) {
    for state in 0..8 * 8 * 9 {
        let numbers = [state % 8, state / 8 % 8, state / 64];
        for high in 0..256 {
            for low in 0..256 {
                for lck in [0, 1] {
                    let mut handler = Handler { last_high: numbers[0], last_low: numbers[1], owner: (numbers[2] != 8).then_some(numbers[2]) };
                    let told = match handler.call(high, low, lck == 1) {
                        Ok(granted) => (0, grant_told(granted)),
                        Err(number) => (number, (UNTOUCHED, UNTOUCHED)),
                    };
                    let (mut lent, mut grant, mut unit) = (numbers, UNTOUCHED, UNTOUCHED);
                    let number = archive::arbitrate(&mut lent, high, low, lck, &mut grant, &mut unit);
                    let left = [handler.last_high, handler.last_low, handler.owner.unwrap_or(8)];
                    if ((number, (grant, unit)), lent) != (told, left) {
                        same("a call of the handler", &(numbers, high, low, lck), ((number, (grant, unit)), lent), (told, left));
                    }
                }
            }
        }
        *counts.compared.entry("calls on every state and pair of sets").or_default() += 256 * 256 * 2;
    }
}

/// Calls on any numbers, most of them in range, with spaces of any size.
fn any_numbers(counts: &mut Counts) {
    let mut random = Random::new(7_000_000);
    let far = [8, 9, 255, 256, 257, 65_535, 65_536, 65_537, u32::MAX];
    for _ in 0..300_000 {
        let mut number = |end: u32| if random.one_in(25) { random.pick(&far) } else { random.below(end) };
        let mut lent = vec![number(8), number(8), number(9), UNTOUCHED];
        let (high, low, lck) = (number(256) & number(256), number(256), number(2));
        lent.truncate(random.pick(&[0, 2, 3, 3, 3, 3, 3, 4]));
        call(counts, &mut lent, high, low, lck);
    }
}

/// A fresh handler in a space of this size.
fn fresh(counts: &mut Counts, space: usize) -> Vec<u32> {
    let mut lent = vec![UNTOUCHED; space];
    let mut left = lent.clone();
    if space >= NUMBERS {
        left[..NUMBERS].copy_from_slice(&numbers(&Handler::fresh()));
    }
    let number = archive::handler(&mut lent);
    same("a fresh handler", &space, (number, &lent), (if space < NUMBERS { 9 } else { 0 }, &left));
    counts.one("fresh handlers", number);
    lent
}

/// Lists of calls from a fresh handler, each on what the last left, refused ones among them.
fn lists(counts: &mut Counts) {
    let mut random = Random::new(7_500_000);
    for length in (0..2_000).map(|_| 100).chain([50_000; 4]) {
        let mut lent = fresh(counts, random.pick(&[3, 4]));
        for _ in 0..length {
            let high = if random.one_in(2) { 0 } else { random.below(256) & random.below(256) };
            let low = if random.one_in(50) { 256 } else { random.below(256) };
            let lck = random.below(2);
            call(counts, &mut lent, high, low, lck);
        }
    }
}

fn main() {
    let mut counts = Counts::default();
    every_call(&mut counts);
    any_numbers(&mut counts);
    lists(&mut counts);
    for space in 0..6 {
        fresh(&mut counts, space);
    }
    counts.expect(&[("calls of the handler", &[0, 8, 9, 10]), ("fresh handlers", &[0, 9])]);
    println!("the handler, compared with no difference:");
    counts.print();
}
