//! The second implementation's lists of accesses in one call, by itself: where a list is refused, what it leaves untouched, and that it equals the same
//! accesses made singly.
use outside::batch::{batch, call_of, Outcome, ACCESS_NUMBERS, LONGEST_LIST};
use outside::machine::{kinds_of, Machine, DIRECTORY_BYTES, STORE_BYTES};
use outside::random::Random;

const UNTOUCHED: u32 = 0xA5A5_A5A5;
/// Document 01's drill: store 0 72 9, load 1 72, store 1 72 10, load 0 584, load 1 584, flush 1 2.
const DRILL: [[u32; ACCESS_NUMBERS]; 6] = [[1, 0, 72, 9], [0, 1, 72, 5], [1, 1, 72, 10], [0, 0, 584, 6], [0, 1, 584, 7], [2, 1, 2, 8]];
/// Its values, and how many orders the first accesses of it give together.
const DRILL_VALUES: [u32; 6] = [0, 9, 0, 0, 0, 0];
const DRILL_ORDERS: [u32; 7] = [0, 1, 4, 5, 6, 8, 8];

/// What a caller lends.
#[derive(Clone, Debug, PartialEq)]
struct Lent {
    directory: Vec<u8>,
    memory: Vec<u8>,
    cache: Vec<u8>,
    values: Vec<u32>,
}

impl Lent {
    fn of(machine: &Machine, values: usize) -> Lent {
        Lent { directory: machine.directory(), memory: machine.memory(), cache: machine.cache(), values: vec![UNTOUCHED; values] }
    }

    /// Cold on zero memory, with copyback boards.
    fn cold(values: usize) -> Lent {
        Lent::of(&cold(0, 0, &[0; STORE_BYTES]), values)
    }

    fn batch(&mut self, accesses: &[u32]) -> Outcome {
        batch(&mut self.directory, &mut self.memory, &mut self.cache, accesses, &mut self.values)
    }

    /// The list ends with this number, 0 if it is accepted, and no access of it is made.
    fn unchanged(&self, refusal: u32, accesses: &[u32]) {
        let mut lent = self.clone();
        assert_eq!(lent.batch(accesses), outcome(refusal, 0, 0));
        assert_eq!(lent, *self);
    }

    /// The first accesses of a list in one call, the others in another, and the outcomes of both.
    fn in_two(mut self, list: &[[u32; ACCESS_NUMBERS]], first: usize) -> ([Outcome; 2], Lent) {
        let behind = self.values.split_off(first);
        let one = self.batch(list[..first].as_flattened());
        let before = std::mem::replace(&mut self.values, behind);
        let other = self.batch(list[first..].as_flattened());
        self.values = [before, self.values].concat();
        ([one, other], self)
    }
}

fn cold(write_through: u32, steal: u32, memory: &[u8]) -> Machine {
    Machine::cold(memory, kinds_of(write_through).expect("a set below 16"), steal == 1)
}

fn outcome(refusal: u32, index: u32, orders: u32) -> Outcome {
    Outcome { refusal, index, orders }
}

/// Accesses of all kinds on a few blocks of two slots.
fn random_accesses(random: &mut Random, count: usize) -> Vec<[u32; ACCESS_NUMBERS]> {
    let access = |_| {
        let block = 16 * random.below(4) + random.below(2);
        let (kind, unit, value) = (random.below(3), random.below(4), random.next());
        [kind, unit, if kind == 2 { block } else { 32 * block + 4 * random.below(8) }, value]
    };
    (0..count).map(access).collect()
}

#[test]
fn document_01s_drill() {
    for length in 0..=DRILL.len() {
        let mut lent = Lent::cold(8);
        assert_eq!(lent.batch(DRILL[..length].as_flattened()), outcome(0, length as u32, DRILL_ORDERS[length]));
        assert_eq!(lent.values, [&DRILL_VALUES[..length], &[UNTOUCHED; 8][length..]].concat());
    }
    let mut lent = Lent::cold(6);
    lent.batch(DRILL.as_flattened());
    // Block 18 is SU in units 0 and 1, and memory has unit 1's word, which went back when block 18 took its slot.
    assert_eq!((&lent.directory[4..6], &lent.directory[36..38], lent.directory[148]), (&[1, 18][..], &[1, 18][..], 3));
    assert_eq!(lent.memory[72..76], [0, 0, 0, 10]);
}

#[test]
fn refused_at_the_first_access_a_middle_one_and_the_last() {
    let bad = [([3, 0, 0, 0], 7), ([u32::MAX, 4, 2, 0], 7), ([0, 4, 2, 0], 3), ([1, 256, 0, 0], 3), ([2, u32::MAX, 64, 0], 3)];
    let bad = bad.into_iter().chain([([0, 3, 2048, 0], 4), ([1, 0, 2, 0], 4), ([2, 0, 64, 0], 4), ([2, 3, 256, 0], 4)]);
    for (place, (access, refusal)) in bad.flat_map(|bad| (0..DRILL.len()).map(move |place| (place, bad))) {
        let mut list = DRILL;
        list[place] = access;
        let (mut lent, mut before) = (Lent::cold(6), Lent::cold(6));
        before.batch(DRILL[..place].as_flattened());
        assert_eq!(lent.batch(list.as_flattened()), outcome(refusal, place as u32, DRILL_ORDERS[place]), "{access:?} at {place}");
        assert_eq!(lent, before, "{access:?} at {place}");
        assert_eq!(lent.values, [&DRILL_VALUES[..place], &[UNTOUCHED; 6][place..]].concat());
    }
}

#[test]
fn the_longest_list_and_a_longer_one() {
    // A unit's first store to a block gives one order, its later ones none.
    let list = [1, 3, 0, 1].repeat(LONGEST_LIST + 1);
    assert_eq!(LONGEST_LIST, 65_536);
    let mut lent = Lent::cold(LONGEST_LIST + 1);
    lent.unchanged(9, &list);
    lent.unchanged(8, &list[1..]);
    assert_eq!(lent.batch(&list[4..]), outcome(0, 65_536, 1));
    assert_eq!((lent.values.iter().filter(|value| **value == 0).count(), lent.values[LONGEST_LIST]), (LONGEST_LIST, UNTOUCHED));
    // The two units take the block from each other at each access: three orders, and one for the first.
    let turns = [1, 0, 72, 9, 1, 1, 72, 8].repeat(LONGEST_LIST / 2);
    assert_eq!(Lent::cold(LONGEST_LIST).batch(&turns), outcome(0, 65_536, 1 + 3 * 65_535));
}

#[test]
fn a_values_space_that_is_too_small() {
    let list = DRILL.as_flattened();
    for room in 0..6 {
        Lent::cold(room).unchanged(9, list);
        Lent { directory: vec![3; 7], memory: vec![], ..Lent::cold(room) }.unchanged(9, &[7; 24]);
    }
    // Room is counted in whole accesses, before a cut list is refused.
    Lent::cold(5).unchanged(9, &[list, &[0]].concat());
    Lent::cold(6).unchanged(8, &[list, &[0]].concat());
    Lent::cold(5).unchanged(8, &list[..23]);
}

#[test]
fn a_list_that_is_cut() {
    for numbers in (0..24).filter(|numbers| numbers % 4 != 0) {
        Lent::cold(6).unchanged(8, &DRILL.as_flattened()[..numbers]);
        Lent { directory: vec![], cache: vec![], ..Lent::cold(6) }.unchanged(8, &[7; 24][..numbers]);
    }
}

#[test]
fn an_empty_list_is_accepted_whatever_is_lent() {
    for (directory, store, values) in [(0, 0, 0), (DIRECTORY_BYTES, STORE_BYTES, 0), (DIRECTORY_BYTES - 1, 1, 3), (500, STORE_BYTES + 1, 65_537)] {
        let lent = Lent { directory: vec![255; directory], memory: vec![7; store], cache: vec![8; store], values: vec![UNTOUCHED; values] };
        lent.unchanged(0, &[]);
    }
}

#[test]
fn an_unknown_kind_is_refused_before_all_else_of_its_access() {
    let sound = Lent::cold(1);
    let broken = Lent { directory: vec![3; DIRECTORY_BYTES], ..sound.clone() };
    let short = Lent { memory: vec![0; STORE_BYTES - 1], ..broken.clone() };
    for kind in [3, 4, 7, 8, 255, 256, 257, 258, 1 << 16, 1 << 31, u32::MAX] {
        for lent in [&sound, &broken, &short] {
            lent.unchanged(7, &[kind, 4, 2, 0]);
        }
    }
    for access in [[0, 4, 2, 0], [1, 4, 2, 0], [2, 4, 64, 0]] {
        sound.unchanged(3, &access);
        broken.unchanged(2, &access);
        short.unchanged(1, &access);
        Lent { memory: vec![0; STORE_BYTES], cache: vec![0; STORE_BYTES + 1], ..broken.clone() }.unchanged(1, &access);
    }
}

/// With each of the 32 settings: one list, the same list in two parts, and the accesses singly.
#[test]
fn a_list_its_two_parts_and_its_accesses_singly() {
    for (write_through, steal) in (0..32).map(|n| (n / 2, n % 2)) {
        let mut random = Random::new(u64::from(7_000 + 2 * write_through + steal));
        let memory: Vec<u8> = (0..STORE_BYTES).map(|_| random.byte()).collect();
        let list = random_accesses(&mut random, 400);
        let mut machine = cold(write_through, steal, &memory);
        let start = Lent::of(&machine, list.len());
        let mut whole = start.clone();
        let made = whole.batch(list.as_flattened());
        for first in [0, 1, random.below(400) as usize, 399, 400] {
            let ([one, other], left) = start.clone().in_two(&list, first);
            assert_eq!((one.refusal, one.index, other.index), (0, first as u32, 400 - first as u32));
            assert_eq!((outcome(other.refusal, 400, one.orders + other.orders), left), (made, whole.clone()), "{first} first");
        }
        let replies: Vec<_> = list.iter().map(|access| machine.call(call_of(access).expect("a known kind")).expect("an access in range")).collect();
        assert_eq!(made, outcome(0, 400, replies.iter().map(|reply| reply.orders.len() as u32).sum()));
        assert_eq!(whole, Lent { values: replies.iter().map(|reply| reply.value).collect(), ..Lent::of(&machine, 0) });
    }
}
