//! Holds parity, lanes, signals and answer codes of the proved library against the second implementation: all of the small inputs, every byte of a word
//! and words at random, and that each number of refusal was met.
mod common;

use common::{code_of, same, Counts};
use outside::archive;
use outside::bus;
use outside::random::Random;

const UNTOUCHED: u32 = 0xA5A5_A5A5;
/// Numbers about the borders, and far from them.
const FAR: [u32; 9] = [8, 65, 254, 255, 256, 257, 65_536, 1 << 31, u32::MAX];

fn check_both(counts: &mut Counts, word: u64, set: u32) {
    let (mut wrong, mut count) = (UNTOUCHED, UNTOUCHED);
    let number = archive::check(word, set, &mut wrong, &mut count);
    let expected = bus::check(word, set);
    same("a check", &(word, set), (number, wrong, count), expected.map_or((code_of(&expected), UNTOUCHED, UNTOUCHED), |(w, c)| (0, w, c)));
    counts.one("checks", number);
}

fn parity_both(counts: &mut Counts, word: u64) {
    same("a parity", &word, archive::parity(word), bus::parity(word));
    counts.seen("parities");
}

/// Every value of every byte, among bytes of zeros, of ones and of others, each beside all 256 sets.
fn bytes(counts: &mut Counts) {
    for place in 0..8 {
        for byte in 0..256u64 {
            for rest in [0, u64::MAX, 0x0102_0408_1020_4080] {
                let word = rest & !(0xFF << (8 * place)) | byte << (8 * place);
                parity_both(counts, word);
                for set in 0..256 {
                    check_both(counts, word, set);
                }
            }
        }
    }
}

/// Words at random, single bits, all but single bits, and parts of words.
fn words(counts: &mut Counts) {
    let mut random = Random::new(6_000_000);
    for n in 0..400_000 {
        let (high, low) = (random.next(), random.next());
        let word = match n % 4 {
            0 => u64::from(high) << 32 | u64::from(low),
            1 => 1 << random.below(64),
            2 => !(1 << random.below(64)),
            _ => u64::from(low) << random.below(33),
        };
        parity_both(counts, word);
        let set = match n % 3 {
            0 => bus::parity(word) ^ 1 << random.below(8),
            1 => random.below(256),
            _ => random.pick(&FAR),
        };
        check_both(counts, word, set);
    }
}

fn lanes(counts: &mut Counts) {
    for ra in (0..64).chain(FAR) {
        for bct in (0..12).chain(FAR) {
            let (mut words, mut positions) = (UNTOUCHED, UNTOUCHED);
            let number = archive::lanes(ra, bct, &mut words, &mut positions);
            let expected = bus::lanes(ra, bct);
            same("lanes", &(ra, bct), (number, words, positions), expected.map_or((code_of(&expected), UNTOUCHED, UNTOUCHED), |(w, p)| (0, w, p)));
            counts.one("lanes", number);
        }
    }
}

fn plans(counts: &mut Counts) {
    for cycles in (0..70).chain(FAR) {
        for cycle in (0..70).chain(FAR) {
            for locked in [0, 1, 2, u32::MAX] {
                let mut levels = [UNTOUCHED; 4];
                let number = archive::plan(cycles, cycle, locked, &mut levels);
                let expected = bus::plan(cycles, cycle, locked);
                same("a plan", &(cycles, cycle, locked), (number, levels), (code_of(&expected), expected.unwrap_or([UNTOUCHED; 4])));
                counts.one("plans", number);
            }
        }
    }
}

fn codes(counts: &mut Counts) {
    for code in (0..300).chain(FAR) {
        let (mut class, mut carried, mut error) = (UNTOUCHED, UNTOUCHED, UNTOUCHED);
        let number = archive::class(code, &mut class, &mut carried, &mut error);
        let expected = bus::class(code);
        same("a class", &code, (number, class, carried, error), expected.map_or((code_of(&expected), UNTOUCHED, UNTOUCHED, UNTOUCHED), |(k, n, e)| (0, k, n, e)));
        counts.one("classes", number);
    }
    for class in (0..12).chain(FAR) {
        for carried in (0..300).chain(FAR) {
            let mut code = UNTOUCHED;
            let number = archive::code(class, carried, &mut code);
            let expected = bus::code(class, carried);
            same("a code", &(class, carried), (number, code), (code_of(&expected), expected.unwrap_or(UNTOUCHED)));
            counts.one("codes", number);
        }
    }
}

fn main() {
    let mut counts = Counts::default();
    bytes(&mut counts);
    words(&mut counts);
    lanes(&mut counts);
    plans(&mut counts);
    codes(&mut counts);
    counts.expect(&[("checks", &[0, 8]), ("lanes", &[0, 8]), ("plans", &[0, 8]), ("classes", &[0, 8]), ("codes", &[0, 8])]);
    println!("the bus, compared with no difference:");
    counts.print();
}
