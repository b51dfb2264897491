//! The benchmark: each call of the proved library beside plain Rust with the same checks, on the same inputs, in one run.
//! "Rust, same work" decodes and encodes the directory as the proved side does; "Rust, in place" works on its bytes.
//! Each figure is the least of many rounds, in nanoseconds for one operation; the two sides take turns.
mod bus;
mod handler;
mod interrupts;
mod messages;
mod packed;
mod records;
mod typed;

use outside::archive;
use outside::interrupt;
use outside::random::Random;
use outside::tape;
use std::hint::black_box;
use std::time::Instant;

const ROUNDS: usize = 41;

/// Directory, stores and the answer's space, as a caller holds them.
#[derive(Clone, PartialEq, Debug)]
struct Lent {
    directory: [u8; 194],
    memory: [u8; 2048],
    cache: [u8; 2048],
    answer: [u32; 18],
}

impl Lent {
    /// A cold machine with this set of write-through units, and with steal on (1) or off (0).
    fn cold(write_through: u8, steal: u8) -> Lent {
        let mut directory = [0; 194];
        directory[128..130].copy_from_slice(&[write_through, steal]);
        Lent { directory, memory: [7; 2048], cache: [0; 2048], answer: [0; 18] }
    }
}

#[derive(Clone, Copy)]
enum Call {
    Load(u32, u32),
    Store(u32, u32, u32),
    Flush(u32, u32),
    Peek(u32),
    Holders(u32),
}

#[derive(Clone, Copy)]
enum Side {
    Proved,
    Typed,
    Packed,
}

/// The list of calls once; gives a sum that depends on every answer.
#[inline(never)]
fn run(side: Side, lent: &mut Lent, calls: &[Call]) -> u64 {
    let Lent { directory: d, memory: m, cache: k, answer: a } = lent;
    let (d, m, k, a) = (&mut d[..], &mut m[..], &mut k[..], &mut a[..]);
    let mut sum = 0u64;
    for &call in calls {
        let (mut store, mut offset) = (0, 0);
        let (mut set, mut count) = (0, 0);
        let code = match (side, call) {
            (Side::Proved, Call::Load(u, x)) => archive::load(d, m, k, u, x, a),
            (Side::Proved, Call::Store(u, x, v)) => archive::store(d, m, k, u, x, v, a),
            (Side::Proved, Call::Flush(u, b)) => archive::flush(d, m, k, u, b, a),
            (Side::Proved, Call::Peek(b)) => archive::peek(d, m, k, b, &mut store, &mut offset),
            (Side::Proved, Call::Holders(b)) => archive::holders(d, b, &mut set, &mut count),
            (Side::Typed, Call::Load(u, x)) => typed::trainer_load(d, m, k, u, x, a),
            (Side::Typed, Call::Store(u, x, v)) => typed::trainer_store(d, m, k, u, x, v, a),
            (Side::Typed, Call::Flush(u, b)) => typed::trainer_flush(d, m, k, u, b, a),
            (Side::Typed, Call::Peek(b)) => typed::trainer_peek(d, m, k, b, &mut store, &mut offset),
            (Side::Typed, Call::Holders(b)) => typed::trainer_holders(d, b, &mut set, &mut count),
            (Side::Packed, Call::Load(u, x)) => packed::trainer_load(d, m, k, u, x, a),
            (Side::Packed, Call::Store(u, x, v)) => packed::trainer_store(d, m, k, u, x, v, a),
            (Side::Packed, Call::Flush(u, b)) => packed::trainer_flush(d, m, k, u, b, a),
            (Side::Packed, Call::Peek(b)) => packed::trainer_peek(d, m, k, b, &mut store, &mut offset),
            (Side::Packed, Call::Holders(b)) => packed::trainer_holders(d, b, &mut set, &mut count),
        };
        sum += (code + a[0] + 8 * a[1] + store + offset + set + 16 * count) as u64;
    }
    sum
}

/// The least time of `work` over the rounds, for each side, in nanoseconds for one of `count` operations.
fn measure<const N: usize>(count: usize, mut work: impl FnMut(usize) -> u64) -> [f64; N] {
    let mut least = [f64::MAX; N];
    let mut sums = [0; N];
    for _ in 0..ROUNDS {
        for side in 0..N {
            let start = Instant::now();
            sums[side] = black_box(work(side));
            least[side] = least[side].min(start.elapsed().as_nanos() as f64 / count as f64);
        }
    }
    assert!(sums.iter().all(|&sum| sum == sums[0]), "the sides differ: {sums:?}");
    least
}

fn row(name: &str, proved: f64, same: f64, place: Option<f64>) {
    let place = place.map_or("|  |  |".to_string(), |p| format!("| {p:.1} | {:.2} |", proved / p));
    println!("| {name} | {proved:.1} | {same:.1} | {:.2} {place}", proved / same);
}

/// A row of calls on a machine with copyback boards and steal off.
fn calls_row(name: &str, prepare: &[Call], calls: &[Call]) {
    settings_row(name, (0, 0), prepare, calls);
}

/// A row of calls on a machine with this set of write-through units and this steal.
fn settings_row(name: &str, (write_through, steal): (u8, u8), prepare: &[Call], calls: &[Call]) {
    let repeat = 40_000 / calls.len();
    let sides = [Side::Proved, Side::Typed, Side::Packed];
    let mut state = sides.map(|side| {
        let mut lent = Lent::cold(write_through, steal);
        run(side, &mut lent, prepare);
        lent
    });
    let [proved, same, place] = measure::<3>(repeat * calls.len(), |n| (0..repeat).map(|_| run(sides[n], &mut state[n], black_box(calls))).sum());
    assert!(state[0] == state[1] && state[1] == state[2], "the sides left different states");
    row(name, proved, same, Some(place));
}

/// A list of accesses in one call; gives a sum that depends on the outcome. The values are compared after all rounds.
#[inline(never)]
fn run_list(side: Side, lent: &mut Lent, accesses: &[u32], values: &mut [u32]) -> u64 {
    let Lent { directory: d, memory: m, cache: k, .. } = lent;
    let (d, m, k) = (&mut d[..], &mut m[..], &mut k[..]);
    let (mut index, mut orders) = (0, 0);
    let code = match side {
        Side::Proved => archive::batch(d, m, k, accesses, values, &mut index, &mut orders),
        Side::Typed => typed::trainer_batch(d, m, k, accesses, values, &mut index, &mut orders),
        Side::Packed => packed::trainer_batch(d, m, k, accesses, values, &mut index, &mut orders),
    };
    u64::from(code + index) << 32 | u64::from(orders)
}

/// The same accesses, loads and stores, one call each; gives the same sum.
#[inline(never)]
fn run_singly(side: Side, lent: &mut Lent, accesses: &[u32], values: &mut [u32]) -> u64 {
    let Lent { directory: d, memory: m, cache: k, answer: a } = lent;
    let (d, m, k, a) = (&mut d[..], &mut m[..], &mut k[..], &mut a[..]);
    let (mut index, mut orders) = (0, 0);
    for (access, value) in accesses.chunks_exact(4).zip(values) {
        let &[kind, u, x, v] = access else { unreachable!("a chunk has four numbers") };
        let code = match (side, kind) {
            (Side::Proved, 0) => archive::load(d, m, k, u, x, a),
            (Side::Proved, _) => archive::store(d, m, k, u, x, v, a),
            (Side::Typed, 0) => typed::trainer_load(d, m, k, u, x, a),
            (Side::Typed, _) => typed::trainer_store(d, m, k, u, x, v, a),
            (Side::Packed, 0) => packed::trainer_load(d, m, k, u, x, a),
            (Side::Packed, _) => packed::trainer_store(d, m, k, u, x, v, a),
        };
        if code != 0 {
            return u64::from(code + index) << 32 | u64::from(orders);
        }
        *value = a[0];
        index += 1;
        orders += a[1];
    }
    u64::from(index) << 32 | u64::from(orders)
}

/// Rows of a list of loads and stores, on a machine with copyback boards and steal off: in one call, and one call each.
fn list_rows(accesses: &[u32]) {
    let count = accesses.len() / 4;
    let repeat = 40_000 / count;
    let sides = [Side::Proved, Side::Typed, Side::Packed, Side::Proved, Side::Typed, Side::Packed];
    let mut state = sides.map(|_| (Lent::cold(0, 0), vec![u32::MAX; count]));
    let least = measure::<6>(repeat * count, |n| {
        let (lent, values) = &mut state[n];
        let once = |_| if n < 3 { run_list(sides[n], lent, black_box(accesses), values) } else { run_singly(sides[n], lent, black_box(accesses), values) };
        (0..repeat).map(once).sum()
    });
    let left = |n: usize| (&state[n].0.directory, &state[n].0.memory, &state[n].0.cache, &state[n].1);
    assert!((1..6).all(|n| left(n) == left(0)), "the sides left different states or values");
    row(&format!("list of {count} random loads and stores in one call, for each"), least[0], least[1], Some(least[2]));
    row("the same list, one call each", least[3], least[4], Some(least[5]));
}

fn random_records(random: &mut Random, count: usize) -> Vec<[u64; 7]> {
    (0..count)
        .map(|_| {
            let wide = |random: &mut Random| (random.next() >> random.below(32)) as u64;
            let r = |random: &mut Random, n: u32| random.below(n) as u64;
            let from = r(random, 8);
            match random.below(7) {
                0 => [0, r(random, 4), 4 * r(random, 512), 0, 0, 0, 0],
                1 => [1, r(random, 4), 4 * r(random, 512), wide(random), 0, 0, 0],
                2 => [2, r(random, 4), r(random, 64), 0, 0, 0, 0],
                3 => [3, r(random, 4), r(random, 2), r(random, 64), r(random, 2), 0, 0],
                4 => [4, from, (from + 1 + r(random, 7)) % 8, r(random, 256), r(random, 256), 0, 0],
                5 => [5, from, (from + 1 + r(random, 7)) % 8, r(random, 256), r(random, 2), wide(random), r(random, 8)],
                _ => [6, r(random, 4), wide(random), 0, 0, 0, 0],
            }
        })
        .collect()
}

/// Records of the kinds 0 to 6 whose numbers all have one byte.
fn short_records(random: &mut Random, count: usize) -> Vec<[u64; 7]> {
    (0..count)
        .map(|_| {
            let r = |random: &mut Random, n: u32| random.below(n) as u64;
            let from = r(random, 8);
            match random.below(7) {
                0 => [0, r(random, 4), 4 * r(random, 32), 0, 0, 0, 0],
                1 => [1, r(random, 4), 4 * r(random, 32), r(random, 128), 0, 0, 0],
                2 => [2, r(random, 4), r(random, 64), 0, 0, 0, 0],
                3 => [3, r(random, 4), r(random, 2), r(random, 64), r(random, 2), 0, 0],
                4 => [4, from, (from + 1 + r(random, 7)) % 8, r(random, 128), r(random, 128), 0, 0],
                5 => [5, from, (from + 1 + r(random, 7)) % 8, r(random, 128), r(random, 2), r(random, 128), r(random, 8)],
                _ => [6, r(random, 4), r(random, 128), 0, 0, 0, 0],
            }
        })
        .collect()
}

fn bytes_of(records: &[[u64; 7]]) -> Vec<u8> {
    let mut tape = Vec::new();
    for n in records {
        let count = tape::field_count(n[0]).expect("a kind of the table");
        let record = tape::Record { kind: n[0], fields: n[1..=count].to_vec() };
        tape.extend(tape::write(&record, 40).expect("a record in its ranges"));
    }
    tape
}

fn read_all(tape: &[u8], read: impl Fn(&[u8], usize, &mut usize, &mut [u64]) -> u32) -> u64 {
    let (mut place, mut sum, mut numbers) = (0, 0u64, [0u64; 7]);
    while place < tape.len() {
        let mut next = 0;
        let code = read(tape, place, &mut next, &mut numbers);
        assert_eq!(code, 0);
        sum = numbers.iter().fold(sum, |sum, &n| sum.wrapping_add(n)).wrapping_add(next as u64);
        place = next;
    }
    sum
}

/// Every record's size; gives a sum that depends on every answer. How many numbers a record has is hidden from the compiler.
fn size_all(records: &[[u64; 7]], record_size: impl Fn(&[u64], &mut usize) -> u32) -> u64 {
    let (mut sum, width) = (0u64, black_box(7));
    for n in records {
        let mut size = 0;
        let code = record_size(&n[..width], &mut size);
        sum += u64::from(code) + (n[0] + 1) * size as u64;
    }
    sum
}

/// Every record written. How many numbers a record has, and the size of the space, are hidden from the compiler.
fn write_all(records: &[[u64; 7]], write: impl Fn(&[u64], &mut [u8], &mut usize) -> u32) -> u64 {
    let (mut sum, mut space) = (0u64, [0u8; 40]);
    let (width, space) = black_box((7, &mut space[..]));
    for n in records {
        let mut count = 0;
        let code = write(&n[..width], space, &mut count);
        sum += (code as usize + count + space[count - 1] as usize) as u64;
    }
    sum
}

fn reading_row(name: &str, records: &[[u64; 7]]) {
    let tape = bytes_of(records);
    let [proved, rust] = measure::<2>(records.len(), |n| {
        let tape = black_box(&tape[..]);
        if n == 0 { read_all(tape, archive::read_record) } else { read_all(tape, records::trainer_read_record) }
    });
    row(name, proved, rust, None);
}

fn size_row(name: &str, records: &[[u64; 7]]) {
    let [proved, rust] = measure::<2>(records.len(), |n| {
        let records = black_box(records);
        if n == 0 { size_all(records, archive::record_size) } else { size_all(records, records::trainer_record_size) }
    });
    row(name, proved, rust, None);
}

fn writing_row(name: &str, records: &[[u64; 7]]) {
    let [proved, rust] = measure::<2>(records.len(), |n| {
        let records = black_box(records);
        if n == 0 { write_all(records, archive::write_record) } else { write_all(records, records::trainer_write_record) }
    });
    row(name, proved, rust, None);
}

/// A drill of as many of these records as the longest tape has room for.
fn drill_row(what: &str, records: &[[u64; 7]]) {
    let (mut tape, mut count) = (Vec::new(), 0);
    for &n in records {
        let more = bytes_of(&[n]);
        if tape.len() + more.len() <= 65_536 {
            tape.extend(more);
            count += 1;
        }
    }
    let mut text = vec![0u8; 1 << 20];
    let [proved, rust] = measure::<2>(count, |n| {
        let mut written = 0;
        let code = if n == 0 { archive::drill(black_box(&tape), &mut text, &mut written) } else { records::trainer_drill(black_box(&tape), &mut text, &mut written) };
        code as u64 + text[..written].iter().map(|&b| b as u64).sum::<u64>() + written as u64
    });
    row(&format!("drill of {} bytes{what}, for each of its {count} records", tape.len()), proved, rust, None);
}

fn tape_rows() {
    let mut random = Random::new(77);
    let records = random_records(&mut random, 9_000);
    reading_row("read_record", &records);
    size_row("record_size", &records);
    writing_row("write_record", &records);
    drill_row("", &random_records(&mut random, 30_000));
    let short = short_records(&mut random, 9_000);
    reading_row("read_record, numbers of one byte", &short);
    writing_row("write_record, numbers of one byte", &short);
}

/// Stamps of numbers from 2^63 up, each divided by 2 fewer than `shifts` times.
fn stamps(random: &mut Random, shifts: u32, count: usize) -> Vec<[u64; 7]> {
    (0..count).map(|_| [8, (random.wide() | 1 << 63) >> random.below(shifts), 0, 0, 0, 0, 0]).collect()
}

fn stamp_rows() {
    let mut random = Random::new(88);
    let any = stamps(&mut random, 64, 9_000);
    let long = stamps(&mut random, 1, 9_000);
    reading_row("read_record, stamps of one to ten groups", &any);
    reading_row("read_record, stamps of ten groups", &long);
    size_row("record_size, stamps of one to ten groups", &any);
    writing_row("write_record, stamps of one to ten groups", &any);
    writing_row("write_record, stamps of ten groups", &long);
    drill_row(" of stamps", &stamps(&mut random, 64, 30_000));
}

/// A receiver with its store and the space for completions, as a caller holds them.
#[derive(Clone, PartialEq)]
struct Inbox {
    receiver: [u64; 4],
    store: [u8; 4096],
    completion: [u64; 4],
}

/// An operation: sequence, sender, AID, bytes.
type Part<'a> = (u32, u32, u32, &'a [u8]);

/// Every operation, in order, to one receiver; gives a sum that depends on every answer. The sizes of what is lent are hidden from the compiler.
fn receive_all(inbox: &mut Inbox, operations: &[Part], receive: impl Fn(&mut [u64], &mut [u8], u32, u32, u32, &[u8], &mut [u64]) -> u32) -> u64 {
    let Inbox { receiver, store, completion } = inbox;
    let (receiver, store, completion) = black_box((&mut receiver[..], &mut store[..], &mut completion[..]));
    let mut sum = 0;
    for &(sequence, sender, aid, bytes) in operations {
        let code = receive(receiver, store, sequence, sender, aid, bytes, completion);
        sum += u64::from(code) + receiver[3] + completion[3] + u64::from(store[0]);
    }
    sum
}

fn receiver_row(name: &str, operations: &[Part]) {
    let repeat = 40_000 / operations.len();
    let idle = Inbox { receiver: [0; 4], store: [0; 4096], completion: [0; 4] };
    let mut inboxes = [idle.clone(), idle];
    let [proved, rust] = measure::<2>(repeat * operations.len(), |n| {
        let once = |inbox: &mut Inbox| {
            let operations = black_box(operations);
            if n == 0 { receive_all(inbox, operations, archive::receive) } else { receive_all(inbox, operations, messages::trainer_receive) }
        };
        (0..repeat).map(|_| once(&mut inboxes[n])).sum()
    });
    assert!(inboxes[0] == inboxes[1], "the sides left different inboxes");
    row(name, proved, rust, None);
}

/// Every operation of a message as the sender cuts it.
fn cut_all(message: &[u8], (sender, aid): (u32, u32), operation: impl Fn(&[u8], u32, u32, usize, &mut u32, &mut usize, &mut usize) -> u32) -> u64 {
    let mut sum = 0;
    for index in 0..message.len().div_ceil(256) {
        let (mut sequence, mut offset, mut length) = (0, 0, 0);
        let code = operation(message, sender, aid, index, &mut sequence, &mut offset, &mut length);
        sum += u64::from(code + sequence) + (offset + length) as u64;
    }
    sum
}

fn message_rows() {
    let mut random = Random::new(99);
    let message: Vec<u8> = (0..4096).map(|_| random.byte()).collect();
    let parts: Vec<Part> = message.chunks(256).enumerate().map(|(n, part)| (if n == 0 { 1 } else if n == 15 { 3 } else { 2 }, 3, 17, part)).collect();
    receiver_row("receive, 256 bytes: messages of 4,096 bytes", &parts);
    let singles: Vec<Part> = message.chunks(8).map(|part| (0, random.below(8), random.below(256), part)).collect();
    receiver_row("receive, 8 bytes: Single", &singles);
    let mixed: Vec<Part> = (0..500).map(|_| (0, 3, 17, &message[..1 + random.below(256) as usize])).collect();
    receiver_row("receive, 1 to 256 bytes at random: Single", &mixed);
    let repeat = 2_500;
    let [proved, rust] = measure::<2>(16 * repeat, |n| {
        let once = |message: &[u8], party| if n == 0 { cut_all(message, party, archive::operation) } else { cut_all(message, party, messages::trainer_operation) };
        (0..repeat).map(|_| once(black_box(&message), black_box((3, 17)))).sum()
    });
    row("operation, of a message of 4,096 bytes", proved, rust, None);
}

/// Every address cycle read; gives a sum that depends on every answer.
fn read_cycles(cycles: &[(u64, u64)], read: impl Fn(u64, u64, &mut u32, &mut u32, &mut u32) -> u32) -> u64 {
    let mut sum = 0;
    for &(upper, lower) in cycles {
        let (mut target, mut agent, mut device) = (0, 0, 0);
        let code = read(upper, lower, &mut target, &mut agent, &mut device);
        sum += u64::from(code + target + 32 * agent + 1024 * device);
    }
    sum
}

/// Every pair of target and agent written.
fn write_cycles(pairs: &[(u32, u32)], write: impl Fn(u32, u32, &mut u64, &mut u64) -> u32) -> u64 {
    let mut sum = 0u64;
    for &(target, agent) in pairs {
        let (mut upper, mut lower) = (0, 0);
        let code = write(target, agent, &mut upper, &mut lower);
        sum = sum.wrapping_add(u64::from(code)).wrapping_add(upper ^ lower >> 31);
    }
    sum
}

fn read_row(name: &str, cycles: &[(u64, u64)]) {
    let [proved, rust] = measure::<2>(cycles.len(), |n| {
        let cycles = black_box(cycles);
        if n == 0 { read_cycles(cycles, archive::read_interrupt) } else { read_cycles(cycles, interrupts::trainer_read_interrupt) }
    });
    row(name, proved, rust, None);
}

fn interrupt_rows() {
    let mut random = Random::new(111);
    // So many that branch prediction does not learn which are refused.
    let pairs: Vec<(u32, u32)> = (0..90_000).map(|_| (random.below(32), random.below(32))).collect();
    let cycles: Vec<(u64, u64)> = pairs.iter().map(|&(target, agent)| interrupt::write(target, agent).expect("numbers up to 31")).collect();
    read_row("read_interrupt", &cycles);
    let mixed: Vec<(u64, u64)> = cycles
        .iter()
        .map(|&(upper, lower)| match random.below(6) {
            0 => (upper, lower ^ 1 << random.below(64)),
            1 => (upper ^ 1 << 43, lower ^ 1 << 43),
            2 => (upper | 1, lower | 1),
            _ => (upper, lower),
        })
        .collect();
    read_row("read_interrupt, half of the cycles refused at random", &mixed);
    let [proved, rust] = measure::<2>(pairs.len(), |n| {
        let pairs = black_box(&pairs[..]);
        if n == 0 { write_cycles(pairs, archive::write_interrupt) } else { write_cycles(pairs, interrupts::trainer_write_interrupt) }
    });
    row("write_interrupt", proved, rust, None);
}

/// A row of calls that lend numbers only: `work` gives a sum that depends on every answer, for the proved side (true) and for Rust.
fn numbers_row<T>(name: &str, inputs: &[T], work: impl Fn(bool, &[T]) -> u64) {
    let [proved, rust] = measure::<2>(inputs.len(), |n| work(n == 0, black_box(inputs)));
    row(name, proved, rust, None);
}

fn bus_rows() {
    let mut random = Random::new(123);
    let words: Vec<(u64, u32)> = (0..40_000).map(|_| (random.wide(), random.below(256))).collect();
    numbers_row("parity", &words, |proved, words| {
        let parity = if proved { archive::parity } else { bus::trainer_parity };
        words.iter().map(|&(word, _)| u64::from(parity(word))).sum()
    });
    numbers_row("check", &words, |proved, words| {
        let check = if proved { archive::check } else { bus::trainer_check };
        let one = |&(word, set): &(u64, u32)| {
            let (mut wrong, mut count) = (0, 0);
            u64::from(check(word, set, &mut wrong, &mut count) + wrong + 256 * count)
        };
        words.iter().map(one).sum()
    });
    let accesses: Vec<(u32, u32)> = (0..40_000).map(|_| (random.next(), random.below(8))).collect();
    numbers_row("lanes", &accesses, |proved, accesses| {
        let lanes = if proved { archive::lanes } else { bus::trainer_lanes };
        let one = |&(ra, bct): &(u32, u32)| {
            let (mut words, mut positions) = (0, 0);
            u64::from(lanes(ra, bct, &mut words, &mut positions) + words + 4 * positions)
        };
        accesses.iter().map(one).sum()
    });
    let cycles: Vec<(u32, u32, u32)> = (0..40_000)
        .map(|_| {
            let n = 1 + random.below(64);
            (n, 1 + random.below(n), random.below(2))
        })
        .collect();
    numbers_row("plan", &cycles, |proved, cycles| {
        let plan = if proved { archive::plan } else { bus::trainer_plan };
        let one = |&(n, cycle, locked): &(u32, u32, u32)| {
            let mut levels = [0; 4];
            u64::from(plan(n, cycle, locked, &mut levels) + levels[0] + 2 * levels[1] + 4 * levels[2] + 8 * levels[3])
        };
        cycles.iter().map(one).sum()
    });
    let codes: Vec<u32> = (0..40_000).map(|_| random.below(256)).collect();
    numbers_row("class", &codes, |proved, codes| {
        let class = if proved { archive::class } else { bus::trainer_class };
        let one = |&code: &u32| {
            let (mut number, mut carried, mut error) = (0, 0, 0);
            u64::from(class(code, &mut number, &mut carried, &mut error) + number + 16 * carried + 4096 * error)
        };
        codes.iter().map(one).sum()
    });
    let classes: Vec<(u32, u32)> = codes
        .iter()
        .map(|&code| {
            let (mut number, mut carried, mut error) = (0, 0, 0);
            bus::trainer_class(code, &mut number, &mut carried, &mut error);
            (number, carried)
        })
        .collect();
    numbers_row("code", &classes, |proved, classes| {
        let code_of = if proved { archive::code } else { bus::trainer_code };
        let one = |&(class, carried): &(u32, u32)| {
            let mut code = 0;
            u64::from(code_of(class, carried, &mut code) + code)
        };
        classes.iter().map(one).sum()
    });
    let requests: Vec<(u32, u32, u32)> = (0..40_000)
        .map(|_| (if random.one_in(2) { random.below(256) } else { 0 }, random.below(256), random.below(2)))
        .collect();
    numbers_row("arbitrate", &requests, |proved, requests| {
        let arbitrate = if proved { archive::arbitrate } else { handler::trainer_arbitrate };
        let mut state = [7, 7, 8];
        let mut one = |&(high, low, lck): &(u32, u32, u32)| {
            let (mut grant, mut unit) = (0, 0);
            u64::from(arbitrate(black_box(&mut state[..]), high, low, lck, &mut grant, &mut unit) + 8 * grant + 32 * unit)
        };
        requests.iter().map(&mut one).sum()
    });
}

/// The loop of the program `mix` in plain Rust: five million loads and stores with their tests, and no boundary around them.
fn mix(load: impl Fn(u32, u32) -> u32, store: impl Fn(u32, u32, u32)) -> u32 {
    let (mut sum, mut x) = (0u32, 12345u32);
    for _ in 0..5_000_000 {
        x = (x % 65536) * 60000 + x / 65536 + 1;
        let (unit, address) = (x / 7 % 4, x / 32 % 512 * 4);
        let value = if x / 65536 % 8 < 4 {
            load(unit, address)
        } else {
            store(unit, address, x);
            0
        };
        sum = sum % 65536 + value % 65536;
    }
    sum
}

/// Times the built program `mix`, whose path is the argument, beside the same loop over the two kinds of Rust.
fn mix_row(program: &str) {
    use std::cell::RefCell;
    let mut printed = String::new();
    let [proved, same, place] = {
        let mut least = [f64::MAX; 3];
        let mut sums = [0u32; 3];
        for _ in 0..ROUNDS / 2 {
            for (side, least) in least.iter_mut().enumerate() {
                let start = Instant::now();
                sums[side] = match side {
                    0 => {
                        let output = std::process::Command::new(program).output().expect("the program mix runs");
                        printed = String::from_utf8_lossy(&output.stdout).trim().to_string();
                        printed.parse().expect("mix prints a number")
                    }
                    1 => {
                        let state = RefCell::new((typed::Directory::cold(), [0u8; 2048], [0u8; 2048]));
                        mix(
                            |u, a| {
                                let (d, m, k) = &mut *state.borrow_mut();
                                typed::tested_load(d, m, k, u, a).value
                            },
                            |u, a, v| {
                                let (d, m, k) = &mut *state.borrow_mut();
                                typed::tested_store(d, m, k, u, a, v);
                            },
                        )
                    }
                    _ => {
                        let state = RefCell::new(([0u8; 194], [0u8; 2048], [0u8; 2048]));
                        mix(
                            |u, a| {
                                let (d, m, k) = &mut *state.borrow_mut();
                                packed::tested_load(d, m, k, u, a).value
                            },
                            |u, a, v| {
                                let (d, m, k) = &mut *state.borrow_mut();
                                packed::tested_store(d, m, k, u, a, v);
                            },
                        )
                    }
                };
                *least = least.min(start.elapsed().as_nanos() as f64 / 5e6);
            }
        }
        assert!(sums.iter().all(|&sum| sum == sums[0]), "the sides differ: {sums:?}");
        least
    };
    row(&format!("the program `mix` (sum {printed}), for each call"), proved, same, Some(place));
}

fn main() {
    println!("| Operation | proved, ns | Rust, same work, ns | ratio | Rust, in place, ns | ratio |");
    println!("|---|---|---|---|---|---|");
    let held: Vec<Call> = (0..16).map(|s| Call::Load(s % 4, 32 * s + 4 * (s % 8))).collect();
    calls_row("load, held", &held, &held);
    let misses: Vec<Call> = (0..64).map(|n| Call::Load(n % 4, 32 * ((17 * n) % 64) + 4)).collect();
    calls_row("load, not held", &[], &misses);
    let own: Vec<Call> = (0..16).map(|s| Call::Store(s % 4, 32 * s + 4 * (s % 8), s)).collect();
    calls_row("store, held EM", &own, &own);
    let turns: Vec<Call> = (0..64).map(|n| Call::Store((n / 16) % 4, 32 * (n % 16), n)).collect();
    calls_row("store, EM in another unit", &own, &turns);
    let flushes: Vec<Call> = (0..64).map(|b| Call::Flush(b % 4, b)).collect();
    calls_row("flush, not held", &own, &flushes);
    let both: Vec<Call> = (0..64).flat_map(|b| [Call::Store(b % 4, 32 * b, b), Call::Flush(b % 4, b)]).collect();
    calls_row("store and flush in turn", &[], &both);
    let peeks: Vec<Call> = (0..64).map(Call::Peek).collect();
    calls_row("peek", &own, &peeks);
    let mut random = Random::new(5);
    let mix: Vec<Call> = (0..4096)
        .map(|_| {
            let (u, x) = (random.below(4), 4 * random.below(512));
            if random.one_in(2) { Call::Load(u, x) } else { Call::Store(u, x, random.next()) }
        })
        .collect();
    let asked: Vec<Call> = (0..4096).map(|_| Call::Holders(random.below(64))).collect();
    calls_row("holders", &mix, &asked);
    calls_row("random loads and stores", &[], &mix);
    settings_row("random loads and stores, two write-through boards", (0b0101, 0), &[], &mix);
    settings_row("random loads and stores, steal on", (0, 1), &[], &mix);
    let accesses: Vec<[u32; 4]> = (0..10_000).map(|_| [random.below(2), random.below(4), 4 * random.below(512), random.next()]).collect();
    list_rows(accesses.as_flattened());
    tape_rows();
    stamp_rows();
    message_rows();
    interrupt_rows();
    bus_rows();
    match std::env::args().nth(1) {
        Some(program) => mix_row(&program),
        None => println!("(give the built program mix as the argument to time it too)"),
    }
}
