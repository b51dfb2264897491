//! Holds the proved messages, through their C interface, against the second implementation: every refusal, every number of the receiver
//! and of the completion, every byte of the store, and that what lies around them stays. The seeds are fixed; a difference ends the run
//! with a failure.
mod common;

use common::{code_of, same, Counts};
use outside::archive::{self, COMPLETION_NUMBERS, RECEIVER_NUMBERS};
use outside::message::{self, Operation, Pending, Receiver, Sequence, LONGEST, OUT_OF_RANGE, PART, TOO_LONG};
use outside::random::Random;

/// Elements before and behind all that is lent, which no call may touch.
const MARGIN: usize = 16;
const UNTOUCHED: u64 = 0xA5A5_A5A5_A5A5_A5A5;
/// What no answer is.
const NONE: usize = usize::MAX - 0xA5;

/// An operation as C sends it.
#[derive(Clone, Copy, Debug)]
struct Sent<'a> {
    sequence: u32,
    sender: u32,
    aid: u32,
    bytes: &'a [u8],
}

/// The second implementation's operation; where the sequence is none, one that is refused for the same reason in the same place.
fn operation_of<'a>(sent: &Sent<'a>) -> Operation<'a> {
    let Sent { sequence, sender, aid, bytes } = *sent;
    match Sequence::ALL.get(sequence as usize) {
        Some(&sequence) => Operation { sequence, sender, aid, bytes },
        None => Operation { sequence: Sequence::Single, sender: 8, aid, bytes },
    }
}

/// The receiver that four numbers stand for; where they stand for none, a broken one.
fn receiver_of(numbers: &[u64]) -> Receiver {
    Receiver(match numbers[..4] {
        [0, 0, 0, 0] => None,
        [1, sender, aid, count] => Some(Pending { sender, aid, count }),
        _ => Some(Pending { sender: 0, aid: 0, count: 0 }),
    })
}

fn numbers_of(receiver: Receiver) -> [u64; RECEIVER_NUMBERS] {
    receiver.0.map_or([0; 4], |message| [1, message.sender, message.aid, message.count])
}

/// What a caller lends, with the margins around it.
#[derive(Clone, Debug, PartialEq)]
struct Lent {
    receiver: Vec<u64>,
    store: Vec<u8>,
    completion: Vec<u64>,
}

fn inner<T>(whole: &mut [T]) -> &mut [T] {
    let end = whole.len() - MARGIN;
    &mut whole[MARGIN..end]
}

impl Lent {
    fn new(numbers: &[u64], store: &[u8], completion: usize) -> Lent {
        let around = [UNTOUCHED; MARGIN];
        Lent {
            receiver: [&around, numbers, &around].concat(),
            store: store.to_vec(),
            completion: vec![UNTOUCHED; completion + 2 * MARGIN],
        }
    }

    fn proved(&mut self, sent: &Sent) -> u32 {
        let Lent { receiver, store, completion } = self;
        archive::receive(inner(receiver), inner(store), sent.sequence, sent.sender, sent.aid, sent.bytes, inner(completion))
    }

    fn outside(&mut self, sent: &Sent) -> u32 {
        let (numbers, completion) = (inner(&mut self.receiver), inner(&mut self.completion));
        if numbers.len() < RECEIVER_NUMBERS || completion.len() < COMPLETION_NUMBERS {
            return TOO_LONG;
        }
        let mut receiver = receiver_of(numbers);
        match receiver.receive(inner(&mut self.store), &operation_of(sent)) {
            Err(number) => number,
            Ok(complete) => {
                numbers[..RECEIVER_NUMBERS].copy_from_slice(&numbers_of(receiver));
                let report = complete.map_or([0; 4], |c| [1, u64::from(c.sender), u64::from(c.aid), c.length as u64]);
                completion[..COMPLETION_NUMBERS].copy_from_slice(&report);
                0
            }
        }
    }
}

/// The library's side and the second implementation's, which take the same operations.
struct Pair {
    proved: Lent,
    outside: Lent,
}

impl Pair {
    fn new(lent: Lent) -> Pair {
        Pair { proved: lent.clone(), outside: lent }
    }

    /// One operation on both sides, `sent` to the library and its twin to the second implementation, and everything compared.
    fn take(&mut self, counts: &mut Counts, seed: u64, sent: &Sent, twin: &Sent) -> u32 {
        let before = (self.proved.receiver.clone(), self.proved.store.len(), self.proved.completion.len());
        let bytes = sent.bytes.to_vec();
        let code = self.proved.proved(sent);
        let expected = self.outside.outside(twin);
        let context = (seed, sent, before);
        same("an operation's refusal", &context, code, expected);
        same("the receiver after an operation", &context, &self.proved.receiver, &self.outside.receiver);
        same("the completion after an operation", &context, &self.proved.completion, &self.outside.completion);
        same("the store after an operation", &context, &self.proved.store, &self.outside.store);
        same("the operation's bytes", &context, sent.bytes, &bytes[..]);
        counts.one("operations received", code);
        code
    }
}

fn random_bytes(random: &mut Random, count: usize) -> Vec<u8> {
    (0..count).map(|_| random.byte()).collect()
}

/// A part of `source` that starts anywhere in it.
fn part<'a>(random: &mut Random, source: &'a [u8], length: usize) -> &'a [u8] {
    let start = random.below((source.len() - length) as u32 + 1) as usize;
    &source[start..start + length]
}

const EDGES: [u64; 20] = [
    0, 1, 2, 3, 7, 8, 9, 255, 256, 257, 4095, 4096, 4097, 1 << 16, (1 << 16) + 1, 1 << 32, (1 << 32) + 1, (1 << 32) + 256, 1 << 63, u64::MAX,
];

/// Idle, or pending at any count; now and then with one number at an edge or beyond it.
fn random_receiver(random: &mut Random) -> [u64; RECEIVER_NUMBERS] {
    let count = match random.below(4) {
        0 => random.pick(&[1, 2, 255, 256, 257, 3839, 3840, 3841, 4094, 4095, 4096]),
        1 => 256 * (1 + random.below(16)),
        _ => 1 + random.below(4096),
    };
    let mut numbers = [1, u64::from(random.below(8)), u64::from(random.below(256)), u64::from(count)];
    if random.one_in(3) {
        numbers = [0; 4];
    }
    if random.one_in(6) {
        let (place, number) = (random.below(4) as usize, random.pick(&EDGES));
        numbers[place] = number;
    }
    numbers
}

/// A sender or an AID: mostly the receiver's own, else any in range, or an edge.
fn random_party(random: &mut Random, own: u64, end: u32) -> u32 {
    match random.below(24) {
        0 => random.pick(&EDGES) as u32,
        1 | 2 => random.below(end),
        3 => u32::MAX - random.below(2),
        _ => own as u32,
    }
}

/// An operation that mostly fits the receiver.
fn random_operation<'a>(random: &mut Random, receiver: &[u64; RECEIVER_NUMBERS], source: &'a [u8]) -> Sent<'a> {
    let length = match random.below(8) {
        0 => random.pick(&[0, 1, 2, 255, 256, 257, 258, 512, 4096, 65_537, 65_792]),
        1 => (LONGEST.saturating_sub(receiver[3] as usize) + random.below(3) as usize).saturating_sub(1),
        _ => 1 + random.below(PART as u32) as usize,
    };
    let sequence = match random.below(16) {
        0 => random.pick(&[4, 5, 7, 8, 255, 256, 257, 1 << 16, 1 << 31, u32::MAX - 3, u32::MAX]),
        1 | 2 => random.below(4),
        _ => random.below(2) + if receiver[0] == 0 { 0 } else { 2 },
    };
    Sent {
        sequence,
        sender: random_party(random, receiver[1], 8),
        aid: random_party(random, receiver[2], 256),
        bytes: part(random, source, length),
    }
}

/// A size, mostly the right one.
fn random_size(random: &mut Random, right: usize, others: &[usize]) -> usize {
    if random.one_in(16) { random.pick(others) } else { right }
}

/// Single operations on any receiver, store and spaces of any size.
fn single_operations(counts: &mut Counts) {
    let mut random = Random::new(6_000_000);
    let source = random_bytes(&mut random, 150_000);
    for seed in 0..300_000 {
        let receiver = random_receiver(&mut random);
        let mut numbers = receiver.to_vec();
        numbers.resize(random_size(&mut random, RECEIVER_NUMBERS, &[0, 1, 3, 5, 8]), 0);
        let size = random_size(&mut random, LONGEST, &[0, 1, 256, 2048, 4095, 4097, 8192, 65_536 + 4096]);
        let completion = random_size(&mut random, COMPLETION_NUMBERS, &[0, 1, 3, 5, 8]);
        let store = part(&mut random, &source, size + 2 * MARGIN);
        let mut pair = Pair::new(Lent::new(&numbers, store, completion));
        let sent = random_operation(&mut random, &receiver, &source);
        pair.take(counts, seed, &sent, &sent);
    }
}

/// The operation at an index as the library cuts it, compared; `None` past the last and where the message is refused.
fn operation_both<'a>(counts: &mut Counts, message: &'a [u8], party: (u32, u32), index: usize, cut: &Result<Vec<Operation>, u32>) -> Option<Sent<'a>> {
    let (mut sequence, mut offset, mut length) = (u32::MAX, NONE, NONE);
    let code = archive::operation(message, party.0, party.1, index, &mut sequence, &mut offset, &mut length);
    let expected = match cut {
        Err(number) => (*number, u32::MAX, NONE, NONE),
        Ok(parts) => parts.get(index).map_or((0, 0, 0, 0), |part| {
            let offset = parts[..index].iter().map(|before| before.bytes.len()).sum();
            (0, part.sequence as u32, offset, part.bytes.len())
        }),
    };
    same("an operation that was cut", &(message.len(), party, index), (code, sequence, offset, length), expected);
    counts.one("operations cut", code);
    let bytes = message.get(offset..offset.checked_add(length)?)?;
    (length > 0).then_some(Sent { sequence, sender: party.0, aid: party.1, bytes })
}

/// A message cut on both sides: how many operations, each of them, and some past the last. Gives the library's and the second implementation's.
fn cut_both<'a>(counts: &mut Counts, random: &mut Random, message: &'a [u8], party: (u32, u32)) -> Option<Vec<(Sent<'a>, Sent<'a>)>> {
    let cut = message::divide(message, party.0, party.1);
    let mut count = NONE;
    let code = archive::divide(message, party.0, party.1, &mut count);
    let expected = (code_of(&cut), cut.as_ref().map_or(NONE, Vec::len));
    same("a message that was cut", &(message.len(), party), (code, count), expected);
    counts.one("messages cut", code);
    let end = cut.as_ref().map_or(0, Vec::len);
    let far = random.pick(&[usize::MAX - 1, usize::MAX, 1 << 32, 1 << 56, (1 << 56) + 1, 1 << 63, 4096, 15, 16, 17]);
    for index in [end, end + 1, end.max(far)] {
        same("past the last operation", &(message.len(), index), operation_both(counts, message, party, index, &cut).is_none(), true);
    }
    let parts = cut.as_ref().ok()?;
    let pairs = parts.iter().enumerate().map(|(index, part)| {
        let proved = operation_both(counts, message, party, index, &cut).expect("an operation of the message");
        (proved, Sent { sequence: part.sequence as u32, sender: part.sender, aid: part.aid, bytes: part.bytes })
    });
    Some(pairs.collect())
}

/// An operation that does not belong where it comes: of another message, or the same message's once more.
fn foreign<'a>(random: &mut Random, own: &[(Sent<'a>, Sent<'a>)], source: &'a [u8]) -> Sent<'a> {
    let again = random.pick(own).0;
    match random.below(4) {
        0 => again,
        1 => Sent { sender: random.below(8), ..again },
        2 => Sent { aid: random.below(256), ..again },
        _ => {
            let length = 1 + random.below(PART as u32) as usize;
            Sent { sequence: random.below(4), sender: random.below(8), aid: random.below(256), bytes: part(random, source, length) }
        }
    }
}

/// One message, cut and received on both sides, in half of the runs with foreign operations between its own.
fn one_message(counts: &mut Counts, random: &mut Random, message: &[u8], source: &[u8]) {
    let sender = if random.one_in(20) { random.pick(&EDGES) as u32 } else { random.below(8) };
    let aid = if random.one_in(20) { random.pick(&EDGES) as u32 } else { random.below(256) };
    let Some(operations) = cut_both(counts, random, message, (sender, aid)) else { return };
    let before = part(random, source, LONGEST + 2 * MARGIN);
    let mut pair = Pair::new(Lent::new(&[0; 4], before, COMPLETION_NUMBERS));
    let (seed, calm, mut disturbed) = (message.len() as u64, random.one_in(2), false);
    for (proved, outside) in &operations {
        while !calm && random.one_in(3) {
            let sent = foreign(random, &operations, source);
            disturbed |= pair.take(counts, seed, &sent, &sent) == 0;
        }
        pair.take(counts, seed, proved, outside);
    }
    if disturbed {
        counts.seen("messages received among foreign operations of which some were accepted");
        return;
    }
    let mut after = before.to_vec();
    after[MARGIN..MARGIN + message.len()].copy_from_slice(message);
    let mut whole = Lent::new(&[0; 4], &after, COMPLETION_NUMBERS);
    inner(&mut whole.completion).copy_from_slice(&[1, u64::from(sender), u64::from(aid), message.len() as u64]);
    same("a message that came together again", &(message.len(), sender, aid), pair.proved, whole);
    counts.seen("messages that came together again");
}

/// Messages of every length up to 4,200, and some of many more bytes.
fn whole_messages(counts: &mut Counts) {
    let mut random = Random::new(7_000_000);
    let source = random_bytes(&mut random, 150_000);
    for _ in 0..5 {
        for length in 0..=4200 {
            let message = part(&mut random, &source, length);
            one_message(counts, &mut random, message, &source);
        }
    }
    for length in [8192, 65_536, 65_537, 65_792, 65_536 + 4096] {
        for _ in 0..20 {
            let message = part(&mut random, &source, length);
            one_message(counts, &mut random, message, &source);
        }
    }
    for party in [(8, 0), (0, 256), (u32::MAX, u32::MAX)] {
        for length in [0, 1, 256, 257, 4096, 4097] {
            same("a party out of range", &party, message::divide(&source[..length], party.0, party.1).err(), Some(OUT_OF_RANGE));
            cut_both(counts, &mut random, &source[..length], party);
        }
    }
}

fn main() {
    let mut counts = Counts::default();
    single_operations(&mut counts);
    whole_messages(&mut counts);
    counts.expect(&[("operations received", &[0, 1, 8, 9, 10, 11, 12]), ("messages cut", &[0, 8, 9]), ("operations cut", &[0, 8, 9])]);
    println!("messages, compared with no difference:");
    counts.print();
}
