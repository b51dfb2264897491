//! Holds the proved library's lists of accesses in one call, through its C interface, against the second implementation and against the same accesses made
//! singly by the library: number, index and orders, every byte of directory and stores, every value, and that what lies around them stays. The seeds are
//! fixed; a difference ends the run with a failure.
mod common;
#[path = "common/machines.rs"]
mod machines;

use common::{code_of, same, Counts};
use machines::{random_call, random_directory, random_size};
use outside::archive::{self, ANSWER_NUMBERS};
use outside::batch::{batch, call_of, Outcome, ACCESS_NUMBERS, LONGEST_LIST};
use outside::machine::{kinds_of, steal_of, Call, Machine, STORE_BYTES};
use outside::random::Random;
use outside::tape::{FIELD_RANGE, NO_ROOM, UNKNOWN_KIND};
use std::collections::BTreeSet;

/// Elements before and behind all that is lent, which no call may touch.
const MARGIN: usize = 16;
const UNTOUCHED: u32 = 0xA5A5_A5A5;

type Access = [u32; ACCESS_NUMBERS];

/// What a caller lends beside the list, with the margins around it.
#[derive(Clone, Debug, PartialEq)]
struct Lent {
    directory: Vec<u8>,
    memory: Vec<u8>,
    cache: Vec<u8>,
    values: Vec<u32>,
}

fn inner<T>(whole: &mut [T]) -> &mut [T] {
    let end = whole.len() - MARGIN;
    &mut whole[MARGIN..end]
}

impl Lent {
    fn new(directory: &[u8], memory: &[u8], cache: &[u8]) -> Lent {
        let around = |bytes: &[u8]| [&[0xA5; MARGIN], bytes, &[0xA5; MARGIN]].concat();
        Lent { directory: around(directory), memory: around(memory), cache: around(cache), values: Vec::new() }
    }

    /// With a values space of this size.
    fn with_room(&mut self, room: usize) -> &mut Lent {
        self.values = vec![UNTOUCHED; room + 2 * MARGIN];
        self
    }

    fn parts(&mut self) -> (&mut [u8], &mut [u8], &mut [u8], &mut [u32]) {
        (inner(&mut self.directory), inner(&mut self.memory), inner(&mut self.cache), inner(&mut self.values))
    }

    fn proved(&mut self, accesses: &[u32]) -> Outcome {
        let (directory, memory, cache, values) = self.parts();
        let (mut index, mut orders) = (UNTOUCHED, UNTOUCHED);
        let refusal = archive::batch(directory, memory, cache, accesses, values, &mut index, &mut orders);
        Outcome { refusal, index, orders }
    }

    fn outside(&mut self, accesses: &[u32]) -> Outcome {
        let (directory, memory, cache, values) = self.parts();
        batch(directory, memory, cache, accesses, values)
    }

    /// A call of the library by itself.
    fn call(&mut self, call: Call, answer: &mut [u32]) -> u32 {
        let (directory, memory, cache, _) = self.parts();
        match call {
            Call::Load { unit, address } => archive::load(directory, memory, cache, unit, address, answer),
            Call::Store { unit, address, value } => archive::store(directory, memory, cache, unit, address, value, answer),
            Call::Flush { unit, block } => archive::flush(directory, memory, cache, unit, block, answer),
        }
    }

    /// The accesses made singly by the library, up to the first that is refused.
    fn singly(&mut self, accesses: &[u32]) -> Outcome {
        let (mut outcome, mut answer) = (Outcome::default(), [UNTOUCHED; ANSWER_NUMBERS]);
        for (place, access) in accesses.chunks_exact(ACCESS_NUMBERS).enumerate() {
            let refusal = call_of(access).map_or(UNKNOWN_KIND, |call| self.call(call, &mut answer));
            if refusal != 0 {
                return Outcome { refusal, ..outcome };
            }
            self.parts().3[place] = answer[0];
            outcome.index += 1;
            outcome.orders += answer[1];
        }
        outcome
    }
}

/// One list on both sides and, if it isn't refused whole, singly; everything compared.
fn list_both(counts: &mut Counts, lent: &mut Lent, accesses: &[u32], at: (&str, u64)) -> Outcome {
    let (before, list) = (lent.clone(), accesses.to_vec());
    let (mut outside, mut singly) = (before.clone(), before.clone());
    let outcome = lent.proved(accesses);
    let context = (at, accesses.len(), before.values.len() - 2 * MARGIN, &before.directory);
    same("a list's outcome", &context, outcome, outside.outside(accesses));
    same("what a list leaves", &context, &*lent, &outside);
    same("the list itself", &context, accesses, &list[..]);
    if [FIELD_RANGE, NO_ROOM].contains(&outcome.refusal) {
        same("what a list that is refused whole leaves", &context, &*lent, &before);
    } else {
        same("a list's outcome beside its accesses singly", &context, outcome, singly.singly(accesses));
        same("what a list leaves beside its accesses singly", &context, &*lent, &singly);
        counts.seen("lists beside their accesses singly");
    }
    counts.one("lists", outcome.refusal);
    outcome
}

/// Whether a sound machine accepts the call.
fn in_range(call: Call) -> bool {
    match call {
        Call::Load { unit, address } | Call::Store { unit, address, .. } => unit <= 3 && address % 4 == 0 && address <= 2044,
        Call::Flush { unit, block } => unit <= 3 && block <= 63,
    }
}

/// An access, in range or also out of it. A load and a flush have any value.
fn random_access(random: &mut Random, blocks: u32, clean: bool) -> Access {
    loop {
        let call = random_call(random, blocks);
        if in_range(call) || !clean {
            return match call {
                Call::Load { unit, address } => [0, unit, address, random.next()],
                Call::Store { unit, address, value } => [1, unit, address, value],
                Call::Flush { unit, block } => [2, unit, block, random.next()],
            };
        }
    }
}

/// Changes an access so that it is refused: by its kind, its unit, or its address or block.
fn damage(random: &mut Random, access: &mut Access) {
    let wide = [256, 257, 258, 259, 1 << 16, (1 << 16) + 1, 1 << 31, u32::MAX - 3, u32::MAX];
    let place = random.below(3) as usize;
    let beyond: &[u32] = match (place, access[0]) {
        (0, _) => &[3, 4, 6, 7, 8, 255],
        (1, _) => &[4, 5, 7, 8, 63, 255],
        (_, 2) => &[64, 65, 127, 128, 255],
        _ => &[1, 2, 3, 73, 2045, 2046, 2047, 2048, 2052, 4096],
    };
    access[place] = if random.one_in(2) { random.pick(beyond) } else { random.pick(&wide) };
    if place == 2 && in_range(call_of(access).expect("a known kind")) {
        access[place] = 2048;
    }
}

/// A list: all in range, or with one access that is refused, the first, a middle one or the last; or any.
fn random_list(random: &mut Random, count: usize) -> Vec<u32> {
    let (blocks, kind) = (1 + random.below(4), random.below(4));
    let mut list: Vec<Access> = (0..count).map(|_| random_access(random, blocks, kind > 0)).collect();
    if kind == 1 && count > 0 {
        let place = random.pick(&[0, count / 2, count - 1]);
        damage(random, &mut list[place]);
    }
    list.concat()
}

/// By how many numbers a list of so many accesses is cut, and the size of the values space.
fn random_sizes(random: &mut Random, count: usize) -> (usize, usize) {
    let cut = if random.one_in(12) { random.below(4) as usize } else { 0 };
    let room = match random.below(16) {
        0 => random.below(count as u32 + 1) as usize,
        1 => count.saturating_sub(1),
        2..=5 => count + random.below(6) as usize,
        _ => count,
    };
    (cut.min(ACCESS_NUMBERS * count), room)
}

/// Where in its list an access stands.
fn place_of(index: u32, count: usize) -> &'static str {
    match index as usize {
        0 => "first",
        index if index + 1 == count => "last",
        _ => "middle",
    }
}

/// Lists after a cold start with these settings, each on what the last one left. Gives where which number was met.
fn lists_of_a_machine(counts: &mut Counts, seed: u64, (write_through, steal): (u32, u32)) -> BTreeSet<(&'static str, u32)> {
    let mut random = Random::new(10_000_000 + seed);
    let memory: Vec<u8> = (0..STORE_BYTES).map(|_| random.byte()).collect();
    let machine = Machine::cold(&memory, kinds_of(write_through).expect("a set below 16"), steal_of(steal).expect("0 or 1"));
    let mut lent = Lent::new(&machine.directory(), &memory, &machine.cache());
    let mut met = BTreeSet::new();
    for _ in 0..12 {
        let count = if random.one_in(12) { 400 } else { random.below(40) as usize };
        let list = random_list(&mut random, count);
        let (cut, room) = random_sizes(&mut random, count);
        let outcome = list_both(counts, lent.with_room(room), &list[..list.len() - cut], ("a machine", seed));
        if outcome.refusal != 0 && count > 2 {
            met.insert((place_of(outcome.index, count), outcome.refusal));
        }
    }
    met
}

fn lists(counts: &mut Counts) {
    let at = |place, numbers: &[u32]| numbers.iter().map(|number| (place, *number)).collect::<Vec<_>>();
    let expected = [at("first", &[3, 4, 7, 8, 9]), at("middle", &[3, 4, 7]), at("last", &[3, 4, 7])].concat();
    for settings in (0..32).map(|n| (n / 2, n % 2)) {
        let seeds = (0..60).map(|n| u64::from(100 * (2 * settings.0 + settings.1) + n));
        let met: BTreeSet<_> = seeds.flat_map(|seed| lists_of_a_machine(counts, seed, settings)).collect();
        same("where which number was met", &settings, met, expected.iter().copied().collect());
    }
}

/// A list on any directory and stores of any size. Gives whether it is empty, the number with which the machine cannot be opened, and the list's own.
fn list_on_anything(counts: &mut Counts, seed: u64) -> (bool, u32, u32) {
    let mut random = Random::new(11_000_000 + seed);
    let directory = random_directory(&mut random);
    let mut store = || {
        let (size, first) = (random_size(&mut random, STORE_BYTES), random.byte());
        (0..size).map(|n| first.wrapping_add(n as u8).wrapping_add((n / 32) as u8)).collect::<Vec<u8>>()
    };
    let (memory, cache) = (store(), store());
    let opened = Machine::open(&directory, &memory, &cache);
    let count = random.below(7) as usize;
    let list = random_list(&mut random, count);
    let (cut, room) = random_sizes(&mut random, count);
    let outcome = list_both(counts, Lent::new(&directory, &memory, &cache).with_room(room), &list[..list.len() - cut], ("anything", seed));
    (count == 0, code_of(&opened), outcome.refusal)
}

fn lists_on_anything(counts: &mut Counts) {
    let met: BTreeSet<_> = (0..60_000).map(|seed| list_on_anything(counts, seed)).collect();
    let expected = [(0, &[0, 3, 4, 7, 8, 9][..]), (1, &[1, 7, 8, 9]), (2, &[2, 7, 8, 9])];
    let expected = expected.into_iter().flat_map(|(opened, numbers)| numbers.iter().map(move |number| (false, opened, *number)));
    let empty = [0, 1, 2].map(|opened| (true, opened, 0));
    same("the numbers of lists by what is lent", &"", met, expected.chain(empty).collect());
}

/// Lists around the longest, whole and cut, with values spaces around theirs and around the longest.
fn longest_lists(counts: &mut Counts) {
    let mut random = Random::new(12_000_000);
    let memory: Vec<u8> = (0..STORE_BYTES).map(|_| random.byte()).collect();
    let machine = Machine::cold(&memory, kinds_of(0b0100).expect("a set below 16"), false);
    let start = Lent::new(&machine.directory(), &memory, &machine.cache());
    let accesses: Vec<Access> = (0..2 * LONGEST_LIST + 2).map(|_| random_access(&mut random, 2, true)).collect();
    let mut met = Vec::new();
    for count in [LONGEST_LIST - 1, LONGEST_LIST, LONGEST_LIST + 1, 2 * LONGEST_LIST, 2 * LONGEST_LIST + 1] {
        for (room, more) in [(count - 1, 0), (count, 0), (count + 1, 0), (LONGEST_LIST, 0), (count, 1), (count - 1, 3)] {
            let list = &accesses.as_flattened()[..ACCESS_NUMBERS * count + more];
            met.push(list_both(counts, start.clone().with_room(room), list, ("the longest", (10 * count + more) as u64)).refusal);
        }
    }
    let refused = [9; 6];
    let expected = [[9, 0, 0, 0, 8, 9], [9, 0, 0, 0, 8, 9], refused, refused, refused].concat();
    same("the numbers of long lists", &"", met, expected);
    let mut late = accesses[..LONGEST_LIST].concat();
    late[ACCESS_NUMBERS * (LONGEST_LIST - 1)] = 3;
    let outcome = list_both(counts, start.clone().with_room(LONGEST_LIST), &late, ("the last access of the longest", 0));
    same("the longest list, refused at its last access", &"", (outcome.refusal, outcome.index), (7, 65_535));
}

fn main() {
    let mut counts = Counts::default();
    lists(&mut counts);
    lists_on_anything(&mut counts);
    longest_lists(&mut counts);
    counts.expect(&[("lists", &[0, 1, 2, 3, 4, 7, 8, 9])]);
    println!("compared, with no difference:");
    counts.print();
}
