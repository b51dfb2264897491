//! Holds the proved library, through its C interface, against the second implementation: every answer, every order, every byte of
//! both stores, every refusal. The seeds are fixed; a difference ends the run with a failure.
mod common;
#[path = "common/machines.rs"]
mod machines;

use common::{code_of, same, Counts};
use machines::{put_sets, random_call, random_directory, random_size, sound_directory};
use outside::archive::{self, ANSWER_NUMBERS, RECORD_NUMBERS};
use outside::drill::{drill, LONGEST_TAPE};
use outside::machine::{holders_in, kinds_of, steal_of, Call, Holders, Machine, Newest, Reply};
use outside::machine::{BLOCKS, DIRECTORY_BYTES, HOLDERS_PLACE, SET_PLACE, STEAL_PLACE, STORE_BYTES};
use outside::random::Random;
use outside::tape::{self, Found, Record};
use std::collections::{BTreeMap, BTreeSet};

const UNTOUCHED: u32 = 0xA5A5_A5A5;
/// Bytes that are room for any record.
const ROOM: usize = 40;
/// One byte for each number of a record: of each kind one that is read and written, and of an order three.
const RECORDS: [&[u8]; 10] = [
    &[0, 3, 4],
    &[1, 2, 8, 5],
    &[2, 1, 63],
    &[3, 3, 1, 62, 1],
    &[3, 2, 4, 61, 1],
    &[3, 1, 2, 60, 0],
    &[4, 7, 6, 5, 4],
    &[5, 6, 7, 5, 1, 4, 3],
    &[6, 2, 9],
    &[8, 7],
];

/// The numbers that a call leaves in the lent space.
fn answer_after(reply: &Result<Reply, u32>, space: usize) -> Vec<u32> {
    let mut numbers = vec![UNTOUCHED; space];
    if let Ok(reply) = reply {
        numbers[..ANSWER_NUMBERS].fill(0);
        numbers[0] = reply.value;
        numbers[1] = reply.orders.len() as u32;
        for (order, place) in reply.orders.iter().zip(numbers[2..].chunks_exact_mut(4)) {
            place.copy_from_slice(&[order.unit, order.command as u32, order.block, u32::from(order.retried)]);
        }
    }
    numbers
}

/// The proved machine's state as a caller holds it.
#[derive(Clone, Debug)]
struct Lent {
    directory: Vec<u8>,
    memory: Vec<u8>,
    cache: Vec<u8>,
    answer: Vec<u32>,
}

impl Lent {
    fn call(&mut self, call: Call) -> u32 {
        let Lent { directory, memory, cache, answer } = self;
        answer.fill(UNTOUCHED);
        match call {
            Call::Load { unit, address } => archive::load(directory, memory, cache, unit, address, answer),
            Call::Store { unit, address, value } => archive::store(directory, memory, cache, unit, address, value, answer),
            Call::Flush { unit, block } => archive::flush(directory, memory, cache, unit, block, answer),
        }
    }

    /// Peek's number, and the store and the offset that it left in the lent numbers.
    fn peek(&self, block: u32) -> (u32, u32, u32) {
        let (mut store, mut offset) = (UNTOUCHED, UNTOUCHED);
        let code = archive::peek(&self.directory, &self.memory, &self.cache, block, &mut store, &mut offset);
        (code, store, offset)
    }

    /// The number of the call for a block's holders, and the set and the count that it left in the lent numbers.
    fn holders(&self, block: u32) -> (u32, u32, u32) {
        let (mut set, mut count) = (UNTOUCHED, UNTOUCHED);
        let code = archive::holders(&self.directory, block, &mut set, &mut count);
        (code, set, count)
    }
}

fn peeked(newest: Result<Newest, u32>) -> (u32, u32, u32) {
    match newest {
        Ok(Newest::Memory { offset }) => (0, 0, offset as u32),
        Ok(Newest::Cache { offset }) => (0, 1, offset as u32),
        Err(code) => (code, UNTOUCHED, UNTOUCHED),
    }
}

fn told(holders: Result<Holders, u32>) -> (u32, u32, u32) {
    match holders {
        Ok(Holders { set, count }) => (0, set, count),
        Err(code) => (code, UNTOUCHED, UNTOUCHED),
    }
}

fn name(call: Call) -> &'static str {
    match call {
        Call::Load { .. } => "loads",
        Call::Store { .. } => "stores",
        Call::Flush { .. } => "flushes",
    }
}

/// What a cold start chooses: the set of write-through units, and steal, 1 or 0.
type Settings = (u32, u32);

/// Both machines cold on random memory, the proved one on spaces with anything in them.
fn cold_pair(random: &mut Random, settings: Settings) -> (Lent, Machine) {
    let (write_through, steal) = settings;
    let mut bytes = |size: usize| (0..size).map(|_| random.byte()).collect::<Vec<u8>>();
    let (memory, directory, cache) = (bytes(STORE_BYTES), bytes(DIRECTORY_BYTES), bytes(STORE_BYTES));
    let mut lent = Lent { directory, memory, cache, answer: vec![0; ANSWER_NUMBERS] };
    let code = archive::cold_start(&lent.memory, &mut lent.cache, write_through, steal, &mut lent.directory);
    same("the cold start of a list", &settings, code, 0);
    let machine = Machine::cold(&lent.memory, kinds_of(write_through).expect("a set below 16"), steal_of(steal).expect("0 or 1"));
    same("the directory after a cold start", &settings, &lent.directory, &machine.directory());
    (lent, machine)
}

/// One call both ways, and after it a peek at a block and its holders; gives the call's answer.
fn call_both(counts: &mut Counts, lent: &mut Lent, machine: &mut Machine, call: Call, block: u32, at: (u64, u32)) -> Result<Reply, u32> {
    let reply = machine.call(call);
    let code = lent.call(call);
    let context = (at, call);
    same("a call's refusal", &context, code, code_of(&reply));
    same("a call's answer", &context, lent.answer.clone(), answer_after(&reply, ANSWER_NUMBERS));
    same("the directory after a call", &context, &lent.directory, &machine.directory());
    same("the memory store after a call", &context, &lent.memory, &machine.memory());
    same("the cache store after a call", &context, &lent.cache, &machine.cache());
    counts.one(name(call), code);
    let seen = lent.peek(block);
    same("a peek", &(at, block), seen, peeked(machine.peek(block)));
    counts.one("peeks", seen.0);
    holders_both(counts, lent, machine, block, at);
    reply
}

/// A block's holders both ways; gives the number, the set and the count.
fn holders_both(counts: &mut Counts, lent: &Lent, machine: &Machine, block: u32, at: (u64, u32)) -> (u32, u32, u32) {
    let shown = lent.holders(block);
    same("a block's holders", &(at, block), shown, told(machine.holders(block)));
    counts.one("holders", shown.0);
    shown
}

/// How many orders accepted loads and stores gave: by steal, whether it was a store, and whether of a write-through unit.
type OrderCounts = BTreeMap<(u32, bool, bool), BTreeSet<usize>>;

fn count_orders(met: &mut OrderCounts, call: Call, reply: &Result<Reply, u32>, (write_through, steal): Settings) {
    let (unit, store) = match call {
        Call::Load { unit, .. } => (unit, false),
        Call::Store { unit, .. } => (unit, true),
        Call::Flush { .. } => return,
    };
    if let Ok(reply) = reply {
        met.entry((steal, store, write_through >> unit & 1 == 1)).or_default().insert(reply.orders.len());
    }
}

/// A list of calls after a cold start with any settings, each call on what the last one left. Gives the settings.
fn list_of_calls(counts: &mut Counts, seed: u64, length: u32, met: &mut OrderCounts) -> Settings {
    let mut random = Random::new(seed);
    let settings = (random.below(16), random.below(2));
    let (mut lent, mut machine) = cold_pair(&mut random, settings);
    let blocks = 1 + random.below(4);
    for step in 0..length {
        let call = random_call(&mut random, blocks);
        let block = if random.one_in(20) { random.next() } else { random.below(70) };
        let reply = call_both(counts, &mut lent, &mut machine, call, block, (seed, step));
        count_orders(met, call, &reply, settings);
    }
    settings
}

fn lists_of_calls(counts: &mut Counts) {
    let (mut settings, mut met) = (BTreeSet::new(), OrderCounts::new());
    for seed in 0..1204 {
        let length = if seed < 1200 { 200 } else { 25_000 };
        settings.insert(list_of_calls(counts, seed, length, &mut met));
    }
    same("the settings", &"", settings, (0..32).map(|n| (n / 2, n % 2)).collect());
    let expected: [((u32, bool, bool), &[usize]); 8] = [
        ((0, false, false), &[0, 1, 2, 3, 4]),
        ((0, false, true), &[0, 1, 3]),
        ((0, true, false), &[0, 1, 2, 3, 4]),
        ((0, true, true), &[1, 3]),
        ((1, false, false), &[0, 1, 2, 3]),
        ((1, false, true), &[0, 1, 2]),
        ((1, true, false), &[0, 1, 2, 3]),
        ((1, true, true), &[1, 3]),
    ];
    let expected = expected.into_iter().map(|(access, orders)| (access, orders.iter().copied().collect())).collect();
    same("the counts of orders by steal, store and write-through unit", &"", met, expected);
}

/// A lamp for each block, and for one that is none, after each call of a list with these settings. Gives all that the lamps showed.
fn lamps_of_a_list(counts: &mut Counts, seed: u64, settings: Settings) -> BTreeSet<(u32, u32, u32)> {
    let mut random = Random::new(8_000_000 + seed);
    let (mut lent, mut machine) = cold_pair(&mut random, settings);
    let mut shown = BTreeSet::new();
    for step in 0..2_000 {
        let call = random_call(&mut random, 2);
        let _ = call_both(counts, &mut lent, &mut machine, call, random.below(70), (seed, step));
        shown.extend((0..=BLOCKS as u32).map(|block| holders_both(counts, &lent, &machine, block, (seed, step))));
    }
    shown
}

/// With each of the 32 settings the lamps show all sixteen sets.
fn lamps(counts: &mut Counts) {
    let mut expected: BTreeSet<(u32, u32, u32)> = (0..16u32).map(|set| (0, set, set.count_ones())).collect();
    expected.insert((4, UNTOUCHED, UNTOUCHED));
    for settings in (0..32).map(|n| (n / 2, n % 2)) {
        let shown = lamps_of_a_list(counts, u64::from(2 * settings.0 + settings.1), settings);
        same("what the lamps of a list showed", &settings, shown, expected.clone());
    }
}

/// What a directory of the right size has of the settings: nothing but copyback boards, boards of both kinds, only write-through ones, an EM slot of a
/// write-through unit, a unit above 3; and steal, 2 for all above 1.
fn settings_in(directory: &[u8]) -> Option<(&'static str, u8)> {
    let set = *directory.get(SET_PLACE).filter(|_| directory.len() == DIRECTORY_BYTES)?;
    let modified = (0..64).any(|n| directory[2 * n] == 2 && set >> (n / 16) & 1 == 1);
    let kinds = match set {
        16.. => "a unit above 3",
        _ if modified => "an EM slot of a write-through unit",
        0 => "copyback boards",
        15 => "write-through boards",
        _ => "boards of both kinds",
    };
    Some((kinds, directory[STEAL_PLACE].min(2)))
}

/// What a directory of the right size, which breaks no other rule, has of the sets of holders: true ones, or how the first that differs does.
fn sets_in(directory: &[u8]) -> Option<&'static str> {
    let mut sound = directory.to_vec();
    put_sets(sound.get_mut(..DIRECTORY_BYTES)?);
    holders_in(&sound, 0).ok()?;
    let (kept, found) = (&directory[HOLDERS_PLACE..], &sound[HOLDERS_PLACE..]);
    let differs = kept.iter().zip(found).find(|(kept, found)| kept != found);
    Some(match differs {
        None => "true sets",
        Some((16.., _)) => "a set above 15",
        Some((kept, found)) if kept & found == *kept => "a holder is missing",
        Some((kept, found)) if kept & found == *found => "a unit too many",
        Some(_) => "another unit",
    })
}

/// What was met in a single call: of the directory the settings and the sets, of the calls the numbers.
struct Single {
    settings: Option<(&'static str, u8)>,
    sets: Option<&'static str>,
    call: u32,
    peek: u32,
    holders: u32,
}

/// A single call, and before it a peek and a block's holders, on any directory and stores of any size.
fn single_call(counts: &mut Counts, seed: u64) -> Single {
    let mut random = Random::new(1_000_000 + seed);
    let directory = random_directory(&mut random);
    let (settings, sets) = (settings_in(&directory), sets_in(&directory));
    let mut store = || {
        let size = random_size(&mut random, STORE_BYTES);
        let (seed, step) = (random.byte(), random.byte() | 1);
        (0..size).map(|n| seed.wrapping_add(step.wrapping_mul(n as u8)).wrapping_add((n / 32) as u8)).collect::<Vec<u8>>()
    };
    let (memory, cache) = (store(), store());
    let space = random.pick(&[ANSWER_NUMBERS, ANSWER_NUMBERS, ANSWER_NUMBERS, 0, 17, 19, 30]);
    let mut lent = Lent { directory, memory, cache, answer: vec![0; space] };
    let before = lent.clone();
    let call = random_call(&mut random, 4);
    let room = if space < ANSWER_NUMBERS { Err(tape::NO_ROOM) } else { Ok(()) };
    let opened = Machine::open(&lent.directory, &lent.memory, &lent.cache);

    let block = if random.one_in(5) { random.next() } else { random.below(66) };
    let seen = lent.peek(block);
    same("a peek", &(seed, block, &lent), seen, peeked(opened.clone().and_then(|machine| machine.peek(block))));
    counts.one("peeks", seen.0);
    let shown = lent.holders(block);
    same("a block's holders", &(seed, block, &lent), shown, told(holders_in(&lent.directory, block)));
    counts.one("holders", shown.0);

    let code = lent.call(call);
    let mut after = room.and_then(|()| opened);
    let reply = after.as_mut().map_err(|code| *code).and_then(|machine| machine.call(call));
    let context = (seed, call, &before);
    same("a call's refusal", &context, code, code_of(&reply));
    same("a call's answer", &context, lent.answer.clone(), answer_after(&reply, space));
    let left = match after {
        Ok(machine) => (machine.directory(), machine.memory(), machine.cache()),
        Err(_) => (before.directory.clone(), before.memory.clone(), before.cache.clone()),
    };
    same("what a call leaves", &context, (lent.directory, lent.memory, lent.cache), left);
    counts.one(name(call), code);
    Single { settings, sets, call: code, peek: seen.0, holders: shown.0 }
}

fn single_calls(counts: &mut Counts) {
    let all: Vec<Single> = (0..120_000).map(|seed| single_call(counts, seed)).collect();
    settings_met(&all);
    sets_met(&all);
}

/// Which numbers calls gave by the sets of holders, where the directory breaks no other rule: 2 with each that differs, and never with true ones.
fn sets_met(all: &[Single]) {
    type Numbers = [&'static [u32]; 3];
    let (kept, broken): (Numbers, Numbers) = ([&[0, 1, 3, 4, 9], &[0, 1, 4], &[0, 4]], [&[1, 2, 9], &[1, 2], &[2]]);
    for what in ["true sets", "a set above 15", "a holder is missing", "a unit too many", "another unit"] {
        let expected = if what == "true sets" { kept } else { broken };
        let of_it = || all.iter().filter(|single| single.sets == Some(what));
        let calls: [fn(&Single) -> u32; 3] = [|single| single.call, |single| single.peek, |single| single.holders];
        for (number, expected) in calls.into_iter().zip(expected) {
            let met: BTreeSet<u32> = of_it().map(number).collect();
            same("the numbers of calls, peeks and holders by the sets in the directory", &what, met, expected.iter().copied().collect());
        }
    }
}

/// Which numbers calls gave by the settings in the directory.
fn settings_met(all: &[Single]) {
    let met: BTreeSet<((&str, u8), u32)> = all.iter().filter_map(|single| Some((single.settings?, single.call))).collect();
    let codes = |settings: (&str, u8)| met.iter().filter(|(what, _)| *what == settings).map(|(_, code)| *code).collect::<Vec<u32>>();
    let (any, broken): (&[u32], &[u32]) = (&[0, 1, 2, 3, 4, 9], &[1, 2, 9]);
    let sound = [("copyback boards", any), ("boards of both kinds", any), ("write-through boards", any)];
    for (kinds, numbers) in sound.into_iter().chain([("an EM slot of a write-through unit", broken), ("a unit above 3", broken)]) {
        for (steal, numbers) in [(0, numbers), (1, numbers), (2, broken)] {
            same("the numbers of refusal by the settings in the directory", &(kinds, steal), codes((kinds, steal)), numbers.to_vec());
        }
    }
}

/// Every byte in the place of each block's set, in some directories that keep the rules: the true one alone is accepted, by each call.
fn every_set(counts: &mut Counts) {
    for seed in 0..4 {
        let mut random = Random::new(9_000_000 + seed);
        let directory = sound_directory(&mut random);
        let sound = Lent { directory, memory: vec![1; STORE_BYTES], cache: vec![2; STORE_BYTES], answer: vec![0; ANSWER_NUMBERS] };
        for (block, set) in (0..BLOCKS).flat_map(|block| (0..=255u8).map(move |set| (block, set))) {
            let (mut lent, asked) = (sound.clone(), random.below(BLOCKS as u32));
            lent.directory[HOLDERS_PLACE + block] = set;
            let expected = if lent.directory == sound.directory { 0 } else { 2 };
            let shown = lent.holders(asked);
            same("a block's holders", &(seed, block, set, asked), shown, told(holders_in(&lent.directory, asked)));
            let address = 32 * asked;
            let calls = [Call::Load { unit: 0, address }, Call::Store { unit: 1, address, value: 3 }, Call::Flush { unit: 2, block: asked }];
            let codes = [shown.0, lent.peek(asked).0].into_iter().chain(calls.map(|call| lent.clone().call(call)));
            same("the numbers of all calls by one set", &(seed, block, set), codes.collect(), vec![expected; 5]);
            counts.one("bytes in the place of a set", expected);
        }
    }
}

/// A set of write-through units, one in three with a unit above 3.
fn random_set(random: &mut Random) -> u32 {
    match random.below(6) {
        0 => random.pick(&[16, 17, 31, 32, 64, 128, 255, 256, 1 << 16, 1 << 31, u32::MAX - 15, u32::MAX]),
        1 => random.next(),
        _ => random.below(16),
    }
}

/// Steal, one in three above 1.
fn random_steal(random: &mut Random) -> u32 {
    match random.below(6) {
        0 => random.pick(&[2, 3, 128, 254, 255, 256, 257, 1 << 16, (1 << 16) + 1, 1 << 31, u32::MAX - 1, u32::MAX]),
        1 => random.next(),
        _ => random.below(2),
    }
}

/// A cold start on stores and a directory space of any size, with any set of write-through units and any steal. Gives which of its four tests fail.
fn cold_start(counts: &mut Counts, seed: u64) -> [bool; 4] {
    let mut random = Random::new(2_000_000 + seed);
    let memory = vec![random.byte(); random_size(&mut random, STORE_BYTES)];
    let mut cache = vec![random.byte(); random_size(&mut random, STORE_BYTES)];
    let mut directory = vec![random.byte(); random_size(&mut random, DIRECTORY_BYTES)];
    let (write_through, steal) = (random_set(&mut random), random_steal(&mut random));
    let context = (seed, memory.len(), cache.len(), directory.len(), write_through, steal);
    let wrong_size = memory.len() != STORE_BYTES || cache.len() != STORE_BYTES;
    let tests = [(tape::NO_ROOM, directory.len() < DIRECTORY_BYTES), (3, write_through > 15), (tape::FIELD_RANGE, steal > 1), (1, wrong_size)];
    let expected = tests.into_iter().find(|(_, fails)| *fails).map_or(0, |(number, _)| number);
    let (mut cache_after, mut directory_after) = (cache.clone(), directory.clone());
    if expected <= 1 {
        directory_after[..DIRECTORY_BYTES].fill(0);
        directory_after[SET_PLACE] = write_through as u8;
        directory_after[STEAL_PLACE] = steal as u8;
    }
    if expected == 0 {
        cache_after.fill(0);
    }
    let code = archive::cold_start(&memory, &mut cache, write_through, steal, &mut directory);
    same("a cold start", &context, (code, cache, directory), (expected, cache_after, directory_after));
    counts.one("cold starts", code);
    tests.map(|(_, fails)| fails)
}

fn cold_starts(counts: &mut Counts) {
    let met: BTreeSet<[bool; 4]> = (0..20_000).map(|seed| cold_start(counts, seed)).collect();
    same("how many of the 16 ways in which tests of a cold start can fail together", &"", met.len(), 16);
}

/// A number near 0, 2^7, 2^14 .. 2^63, 2^32 or 2^64.
fn border(random: &mut Random) -> u64 {
    let groups = random.below(10);
    let power = 1u64.checked_shl(random.pick(&[7 * groups, 32, 64])).unwrap_or(0);
    power.wrapping_add(u64::from(random.below(9))).wrapping_sub(4)
}

/// A number of one to ten groups.
fn random_cycles(random: &mut Random) -> u64 {
    if random.one_in(4) {
        border(random)
    } else {
        random.wide() >> random.below(64)
    }
}

/// A field's number, mostly in range.
fn random_field(random: &mut Random, kind: u64, place: usize) -> u64 {
    if random.one_in(60) {
        let edges = [2, 3, 4, 7, 8, 63, 64, 127, 128, 255, 256, 257, 1 << 16, 1 << 31, u64::from(u32::MAX), 1 << 32, (1 << 32) + 1, u64::MAX];
        return if random.one_in(2) { random.pick(&edges) } else { border(random) };
    }
    if kind == 8 {
        return random_cycles(random);
    }
    u64::from(match (kind, place) {
        (0..=2 | 6, 0) => random.below(4),
        (0 | 1, 1) => 4 * random.below(512),
        (2, _) => random.below(64),
        (1, 2) | (6, 1) | (5, 4) => {
            let wide = random.next();
            wide >> random.below(32)
        }
        (3, 0) => random.below(4),
        (3, 1) => random.below(6),
        (3, 2) => random.below(64),
        (3, _) => random.below(2),
        (4 | 5, 0 | 1) => random.below(8),
        (4, _) | (5, 2) => random.below(256),
        (5, 3) => random.below(2),
        _ => random.below(8),
    })
}

/// Seven numbers: a kind, and fields for it with 0 behind them.
fn random_numbers(random: &mut Random) -> Vec<u64> {
    let unknown = [7, 9, 10, 15, 16, 256, 264, u64::from(u32::MAX), 1 << 32, (1 << 32) + 2, (1 << 32) + 8, 1 << 63, u64::MAX];
    let kind = if random.one_in(40) { random.pick(&unknown) } else { random.pick(&[0, 1, 2, 3, 4, 5, 6, 8]) };
    let mut numbers = vec![0; RECORD_NUMBERS];
    numbers[0] = kind;
    for place in 0..tape::field_count(kind).unwrap_or(0) {
        numbers[1 + place] = random_field(random, kind, place);
    }
    numbers
}

/// The record that seven numbers name; another count of numbers names none.
fn record_of(numbers: &[u64]) -> Result<Record, u32> {
    if numbers.len() != RECORD_NUMBERS {
        return Err(tape::FIELD_RANGE);
    }
    let count = tape::field_count(numbers[0]).ok_or(tape::UNKNOWN_KIND)?;
    Ok(Record { kind: numbers[0], fields: numbers[1..=count].to_vec() })
}

fn numbers_of(record: &Record) -> Vec<u64> {
    let mut numbers = vec![0; RECORD_NUMBERS];
    numbers[0] = record.kind;
    numbers[1..=record.fields.len()].copy_from_slice(&record.fields);
    numbers
}

/// The size of one record both ways, compared, and held against what the proved side writes: that many bytes are room enough, and one byte less is not.
/// Gives the size where the record is accepted.
fn size_both(counts: &mut Counts, numbers: &[u64]) -> Option<usize> {
    let expected = record_of(numbers).and_then(|record| tape::size(&record));
    let mut size = usize::MAX;
    let code = archive::record_size(numbers, &mut size);
    same("the size of a record", &numbers, (code, size), (code_of(&expected), *expected.as_ref().unwrap_or(&usize::MAX)));
    if code == 0 {
        for (room, result) in [(size, (0, size)), (size - 1, (tape::NO_ROOM, usize::MAX))] {
            let mut count = usize::MAX;
            let code = archive::write_record(numbers, &mut [0; ROOM][..room], &mut count);
            same("writing into a space of a record's size, or of one byte less", &(numbers, room), (code, count), result);
        }
    }
    counts.one("sizes of records", code);
    expected.ok()
}

/// Writes one record both ways, and compares, its size too; gives its bytes where it is accepted.
fn write_both(counts: &mut Counts, random: &mut Random, numbers: &[u64], room: usize) -> Option<Vec<u8>> {
    size_both(counts, numbers);
    let written = record_of(numbers).and_then(|record| tape::write(&record, room));
    let fill = random.byte();
    let mut space = vec![fill; room];
    let mut count = usize::MAX;
    let code = archive::write_record(numbers, &mut space, &mut count);
    let mut expected = vec![fill; room];
    if let Ok(bytes) = &written {
        expected[..bytes.len()].copy_from_slice(bytes);
    }
    let length = written.as_ref().map_or(usize::MAX, Vec::len);
    same("a written record", &(numbers, room), (code, count, space), (code_of(&written), length, expected));
    counts.one("records written", code);
    written.ok()
}

/// Reads at a place both ways, and compares; gives the place after the record.
fn read_both(counts: &mut Counts, tape: &[u8], place: usize, space: usize) -> Option<usize> {
    let mut next = usize::MAX;
    let mut numbers = vec![u64::MAX; space];
    let code = archive::read_record(tape, place, &mut next, &mut numbers);
    let mut left = vec![u64::MAX; space];
    let mut after = None;
    let expected = if space < RECORD_NUMBERS {
        (tape::NO_ROOM, usize::MAX)
    } else {
        match tape::read(tape, place) {
            Ok(Found::Record(record, end)) => {
                left[..RECORD_NUMBERS].copy_from_slice(&numbers_of(&record));
                after = Some(end);
                (0, end)
            }
            Ok(Found::Finished) => (0, place),
            Err(refused) => (refused.number, refused.place),
        }
    };
    same("a record that was read", &(tape, place, space), ((code, next), numbers), (expected, left));
    counts.one("records read", code);
    after
}

/// A tape of whole records, most of the time damaged afterwards.
fn random_tape(counts: &mut Counts, random: &mut Random, records: u32, damage: bool) -> Vec<u8> {
    let mut tape = Vec::new();
    for _ in 0..records {
        let numbers = random_numbers(random);
        let room = if random.one_in(10) { random.below(12) as usize } else { ROOM };
        if let Some(bytes) = write_both(counts, random, &numbers, room) {
            tape.extend(bytes);
        }
    }
    if damage {
        for _ in 0..random.below(4) {
            let at = random.below(tape.len() as u32 + 1) as usize;
            match random.below(6) {
                0 => tape.truncate(at),
                1 => tape.insert(at, random.pick(&[0, 1, 2, 0x80, 0xFF, 0x0F, 0x10])),
                2 if at < tape.len() => drop(tape.remove(at)),
                3 => tape.push(0x80),
                _ if at < tape.len() => tape[at] ^= 1 << random.below(8),
                _ => tape.push(random.byte()),
            }
        }
    }
    tape
}

fn tapes(counts: &mut Counts) {
    for seed in 0..30_000 {
        let mut random = Random::new(3_000_000 + seed);
        let tape = match random.below(9) {
            0 => (0..random.below(30)).map(|_| random.byte()).collect(),
            1 => (0..random.below(30)).map(|_| random.pick(&[0, 1, 2, 3, 4, 5, 6, 7, 8, 9, 0x80, 0x7F, 0x0F, 0x10, 0xFF])).collect(),
            2 => (0..random.below(40)).map(|_| random.pick(&[0, 1, 1, 2, 8, 8, 0x80, 0x80, 0x80, 0x80, 0x81, 0xFF, 0xFF, 0xFF, 0xFF])).collect(),
            kind => {
                let records = random.below(12);
                random_tape(counts, &mut random, records, kind > 4)
            }
        };
        let mut place = 0;
        while let Some(next) = read_both(counts, &tape, place, RECORD_NUMBERS) {
            if let Ok(Found::Record(record, _)) = tape::read(&tape, place) {
                let bytes = write_both(counts, &mut random, &numbers_of(&record), ROOM);
                same("a record written back", &(&tape, place), bytes.as_deref(), Some(&tape[place..next]));
            }
            place = next;
        }
        for _ in 0..3 {
            let place = match random.below(4) {
                0 => tape.len() + random.below(3) as usize,
                1 => random.pick(&[usize::MAX, usize::MAX - 1, 1 << 32, 1 << 63]),
                _ => random.below(tape.len() as u32 + 1) as usize,
            };
            let space = random.pick(&[RECORD_NUMBERS, RECORD_NUMBERS, 0, 6, 8, 12]);
            read_both(counts, &tape, place, space);
        }
        let numbers: Vec<u64> = random_numbers(&mut random).into_iter().chain([0]).collect();
        let size = random.pick(&[0, 1, 6, 7, 8]);
        write_both(counts, &mut random, &numbers[..size], ROOM);
        counts.seen("tapes");
    }
}

/// Reads these bytes in the place of every number of every kind: with the tape's end right after them, and with the numbers that follow there. True if a
/// stamp takes them as its field.
fn read_everywhere(counts: &mut Counts, bytes: &[u8]) -> bool {
    let mut taken = false;
    for record in RECORDS {
        for place in 0..record.len() {
            let cut = [&record[..place], bytes].concat();
            let whole = [&cut, &record[place + 1..]].concat();
            read_both(counts, &cut, 0, RECORD_NUMBERS);
            let after = read_both(counts, &whole, 0, RECORD_NUMBERS);
            taken |= (record[0], place, after) == (8, 1, Some(1 + bytes.len()));
        }
    }
    taken
}

/// Writes this number in the place of every number of every kind, and of every one behind its last field: with room for any record, with just enough
/// room, and with one byte less.
fn write_everywhere(counts: &mut Counts, random: &mut Random, number: u64) {
    for record in RECORDS {
        for place in 0..RECORD_NUMBERS {
            let mut numbers: Vec<u64> = record.iter().map(|&n| n.into()).collect();
            numbers.resize(RECORD_NUMBERS, 0);
            numbers[place] = number;
            if let Some(bytes) = write_both(counts, random, &numbers, ROOM) {
                write_both(counts, random, &numbers, bytes.len());
                write_both(counts, random, &numbers, bytes.len() - 1);
                let after = read_both(counts, &bytes, 0, RECORD_NUMBERS);
                same("the end of a record that was written", &numbers, after, Some(bytes.len()));
            }
        }
    }
}

/// Writes records of every kind, unknown ones too, with every count of numbers up to twice the right one.
fn write_counts(counts: &mut Counts, random: &mut Random) {
    for record in RECORDS.into_iter().chain([&[7][..], &[9]]) {
        let mut numbers: Vec<u64> = record.iter().map(|&n| n.into()).collect();
        numbers.resize(2 * RECORD_NUMBERS, 0);
        for count in 0..=numbers.len() {
            write_both(counts, random, &numbers[..count], ROOM);
        }
    }
}

/// Spellings of one to eleven bytes, numbers near each power of 2 up to 2^64, and counts of numbers.
fn borders(counts: &mut Counts) {
    let mut lengths = BTreeSet::new();
    for length in 1..=11 {
        for high in [0x80, 0x81, 0xC0, 0xFF] {
            for last in 0..=255 {
                let mut bytes = vec![high; length];
                bytes[length - 1] = last;
                if read_everywhere(counts, &bytes) {
                    lengths.insert(length);
                }
            }
        }
    }
    same("the lengths of the numbers that a stamp takes", &"", lengths, (1..=10).collect());
    let mut random = Random::new(6_000_000);
    let mut sizes = BTreeSet::new();
    for power in 0..=64 {
        for near in 0..5 {
            let number = ((1u128 << power) + near).wrapping_sub(2) as u64;
            let mut bytes = Vec::new();
            tape::spell(number, &mut bytes);
            same("whether a stamp takes a number of 64 bits", &number, read_everywhere(counts, &bytes), true);
            write_everywhere(counts, &mut random, number);
            sizes.extend(size_both(counts, &[8, number, 0, 0, 0, 0, 0]));
        }
    }
    same("the sizes of the stamps", &"", sizes, (2..=11).collect());
    write_counts(counts, &mut random);
}

/// The number of refusal in the last line of a drill's text, 0 where that is the total.
fn ending(text: &str) -> u32 {
    let last = text.lines().last().and_then(|line| line.strip_prefix("refused "));
    last.and_then(|rest| rest.split(' ').next()).map_or(0, |number| number.parse().expect("a number of refusal"))
}

fn drill_both(counts: &mut Counts, tape: &[u8], space: usize) {
    let text = drill(tape);
    counts.one("ends of a drill's text", ending(&text));
    let text = text.into_bytes();
    let mut out = vec![0xA5; space];
    let mut count = usize::MAX;
    let code = archive::drill(tape, &mut out, &mut count);
    let mut expected = vec![0xA5; space];
    let result = if text.len() <= space {
        expected[..text.len()].copy_from_slice(&text);
        (0, text.len())
    } else {
        (tape::NO_ROOM, usize::MAX)
    };
    same("a drill's number and length", &(tape.len(), space), (code, count), result);
    same("a drill's text", &tape, String::from_utf8_lossy(&out), String::from_utf8_lossy(&expected));
    counts.one("drills", code);
}

fn drills(counts: &mut Counts) {
    for seed in 0..3_000 {
        let mut random = Random::new(4_000_000 + seed);
        let records = random.below(200);
        let damage = random.one_in(3);
        let tape = random_tape(counts, &mut random, records, damage);
        let space = if random.one_in(10) { random.below(3000) as usize } else { 1 << 15 };
        drill_both(counts, &tape, space);
    }
    for seed in 0..6 {
        let mut random = Random::new(5_000_000 + seed);
        let mut tape = Vec::new();
        while tape.len() < LONGEST_TAPE - 100 {
            tape.extend(random_tape(counts, &mut random, 100, false));
        }
        for size in [LONGEST_TAPE - 1, LONGEST_TAPE, LONGEST_TAPE + 1, LONGEST_TAPE + 5000] {
            tape.resize(size, 0);
            drill_both(counts, &tape, 1 << 22);
        }
    }
    drill_both(counts, &[], 23);
    drill_both(counts, &[], 22);
    let largest = [8, 0xFF, 0xFF, 0xFF, 0xFF, 0xFF, 0xFF, 0xFF, 0xFF, 0xFF, 1];
    for stamp in [&[8, 5][..], &largest] {
        let tape = stamp.repeat(LONGEST_TAPE / stamp.len());
        drill_both(counts, &tape, 23);
        drill_both(counts, &tape, 22);
    }
}

fn main() {
    let mut counts = Counts::default();
    lists_of_calls(&mut counts);
    lamps(&mut counts);
    single_calls(&mut counts);
    every_set(&mut counts);
    cold_starts(&mut counts);
    tapes(&mut counts);
    drills(&mut counts);
    let mut at_borders = Counts::default();
    borders(&mut at_borders);
    let calls: u64 = ["loads", "stores", "flushes"].iter().map(|what| counts.compared[what]).sum();
    let access: &[u32] = &[0, 1, 2, 3, 4, 9];
    counts.expect(&[("cold starts", &[0, 1, 3, 8, 9]), ("loads", access), ("stores", access), ("flushes", access), ("peeks", &[0, 1, 2, 4])]);
    counts.expect(&[("holders", &[0, 2, 4]), ("bytes in the place of a set", &[0, 2])]);
    counts.expect(&[("records read", &[0, 5, 6, 7, 8, 9]), ("records written", &[0, 7, 8, 9]), ("drills", &[0, 9])]);
    counts.expect(&[("sizes of records", &[0, 7, 8]), ("ends of a drill's text", &[0, 5, 6, 7, 8, 9])]);
    at_borders.expect(&[("records read", &[0, 5, 6, 7, 8]), ("sizes of records", &[0, 7, 8]), ("records written", &[0, 7, 8, 9])]);
    println!("compared, with no difference:");
    println!("  {calls} calls");
    counts.print();
    println!("around the borders of numbers:");
    at_borders.print();
}
