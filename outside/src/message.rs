//! Messages between boards (document 02, T-01, and the standard's Table 6). A message is cut as a row of chunks; a receiver is the
//! message that it waits to complete, if there is one, and its tests are a list of faults, of which the first counts.

/// The longest message, and the size of the receiver's store.
pub const LONGEST: usize = 4096;
/// The most bytes that one operation carries.
pub const PART: usize = 256;

pub const STORE_SIZE: u32 = 1;
pub const OUT_OF_RANGE: u32 = 8;
pub const TOO_LONG: u32 = 9;
pub const BROKEN_RECEIVER: u32 = 10;
pub const OTHER_MESSAGE: u32 = 11;
pub const OUT_OF_TURN: u32 = 12;

/// SQ, bits 20 and 21 of the command.
#[derive(Clone, Copy, Debug, PartialEq, Eq)]
pub enum Sequence {
    Single = 0b00,
    First = 0b01,
    Middle = 0b10,
    Last = 0b11,
}
use Sequence::*;

impl Sequence {
    pub const ALL: [Sequence; 4] = [Single, First, Middle, Last];

    fn of_part(starts: bool, ends: bool) -> Sequence {
        match (starts, ends) {
            (true, true) => Single,
            (true, false) => First,
            (false, false) => Middle,
            (false, true) => Last,
        }
    }

    fn starts(self) -> bool {
        self == Single || self == First
    }

    fn ends(self) -> bool {
        self == Single || self == Last
    }
}

#[derive(Clone, Copy, Debug, PartialEq, Eq)]
pub struct Operation<'a> {
    pub sequence: Sequence,
    pub sender: u32,
    pub aid: u32,
    pub bytes: &'a [u8],
}

/// A message of which `count` bytes have come. Numbers that no message can have may stand here: receiving tests them.
#[derive(Clone, Copy, Debug, PartialEq, Eq)]
pub struct Pending {
    pub sender: u64,
    pub aid: u64,
    pub count: u64,
}

/// Idle where it waits for no message.
#[derive(Clone, Copy, Debug, Default, PartialEq, Eq)]
pub struct Receiver(pub Option<Pending>);

#[derive(Clone, Copy, Debug, PartialEq, Eq)]
pub struct Complete {
    pub sender: u32,
    pub aid: u32,
    pub length: usize,
}

fn bad_party(sender: u64, aid: u64) -> bool {
    sender > 7 || aid > 255
}

impl Receiver {
    /// Takes one operation; gives the message if it is now complete. Refused, receiver and store stay.
    pub fn receive(&mut self, store: &mut [u8], operation: &Operation) -> Result<Option<Complete>, u32> {
        let Operation { sequence, sender, aid, bytes } = *operation;
        let party = (u64::from(sender), u64::from(aid));
        let waiting = self.0;
        let come = waiting.map_or(0, |message| message.count);
        let broken = |m: Pending| bad_party(m.sender, m.aid) || m.count < 1 || m.count > LONGEST as u64;
        let faults = [
            (STORE_SIZE, store.len() != LONGEST),
            (BROKEN_RECEIVER, waiting.is_some_and(broken)),
            (OUT_OF_RANGE, bytes.is_empty() || bytes.len() > PART || bad_party(party.0, party.1)),
            (OUT_OF_TURN, sequence.starts() == waiting.is_some()),
            (OTHER_MESSAGE, waiting.is_some_and(|m| (m.sender, m.aid) != party)),
            (TOO_LONG, u128::from(come) + bytes.len() as u128 > LONGEST as u128),
        ];
        if let Some((number, _)) = faults.into_iter().find(|(_, fault)| *fault) {
            return Err(number);
        }
        let start = come as usize;
        let length = start + bytes.len();
        store[start..length].copy_from_slice(bytes);
        if sequence.ends() {
            self.0 = None;
            return Ok(Some(Complete { sender, aid, length }));
        }
        self.0 = Some(Pending { sender: party.0, aid: party.1, count: length as u64 });
        Ok(None)
    }
}

/// The operations of a message, in the order in which they are sent.
pub fn divide(message: &[u8], sender: u32, aid: u32) -> Result<Vec<Operation<'_>>, u32> {
    if message.is_empty() || bad_party(u64::from(sender), u64::from(aid)) {
        return Err(OUT_OF_RANGE);
    }
    if message.len() > LONGEST {
        return Err(TOO_LONG);
    }
    let mut operations = Vec::new();
    let mut parts = message.chunks(PART).peekable();
    while let Some(bytes) = parts.next() {
        let sequence = Sequence::of_part(operations.is_empty(), parts.peek().is_none());
        operations.push(Operation { sequence, sender, aid, bytes });
    }
    Ok(operations)
}

#[cfg(test)]
mod tests {
    use super::*;

    fn bytes(length: usize) -> Vec<u8> {
        (0..length).map(|n| (7 * n + n / 256) as u8).collect()
    }

    fn operation(sequence: Sequence, sender: u32, aid: u32, bytes: &[u8]) -> Operation<'_> {
        Operation { sequence, sender, aid, bytes }
    }

    fn pending(sender: u64, aid: u64, count: u64) -> Receiver {
        Receiver(Some(Pending { sender, aid, count }))
    }

    /// Refused with this number, and nothing changed.
    fn refused(number: u32, receiver: Receiver, store: &[u8], operation: &Operation) {
        let (mut left, mut bytes) = (receiver, store.to_vec());
        assert_eq!(left.receive(&mut bytes, operation), Err(number), "{receiver:?} {operation:?}");
        assert_eq!((left, &bytes[..]), (receiver, store));
    }

    fn lengths(length: usize) -> Vec<(Sequence, usize)> {
        divide(&bytes(length), 3, 9).unwrap().iter().map(|o| (o.sequence, o.bytes.len())).collect()
    }

    #[test]
    fn table_6() {
        assert_eq!(Sequence::ALL.map(|s| s as u32), [0, 1, 2, 3]);
        assert_eq!(Sequence::ALL, [Single, First, Middle, Last]);
    }

    #[test]
    fn full_operations_first() {
        assert_eq!(lengths(1), [(Single, 1)]);
        assert_eq!(lengths(256), [(Single, 256)]);
        assert_eq!(lengths(257), [(First, 256), (Last, 1)]);
        assert_eq!(lengths(512), [(First, 256), (Last, 256)]);
        assert_eq!(lengths(513), [(First, 256), (Middle, 256), (Last, 1)]);
        let longest = lengths(4096);
        assert_eq!(longest.len(), 16);
        assert_eq!((longest[0], longest[15]), ((First, 256), (Last, 256)));
        assert!(longest[1..15].iter().all(|&part| part == (Middle, 256)));
    }

    #[test]
    fn the_parts_of_600_bytes() {
        let message = bytes(600);
        let parts = divide(&message, 7, 255).unwrap();
        let expected = [
            operation(First, 7, 255, &message[..256]),
            operation(Middle, 7, 255, &message[256..512]),
            operation(Last, 7, 255, &message[512..]),
        ];
        assert_eq!(parts, expected);
        assert_eq!(parts.get(3), None);
    }

    #[test]
    fn what_the_sender_refuses() {
        let long = bytes(4097);
        assert_eq!(divide(&long, 0, 0), Err(9));
        assert!(divide(&long[1..], 7, 255).is_ok());
        assert_eq!(divide(&[], 0, 0), Err(8));
        for (sender, aid) in [(8, 0), (0, 256), (u32::MAX, 0), (0, u32::MAX)] {
            assert_eq!(divide(&long[..5], sender, aid), Err(8));
            assert_eq!(divide(&long, sender, aid), Err(8), "8 comes before 9");
        }
    }

    #[test]
    fn a_message_comes_together_again() {
        for length in [1, 255, 256, 257, 511, 512, 513, 4095, 4096] {
            let message = bytes(length);
            let (mut receiver, mut store) = (Receiver::default(), vec![0xEE; LONGEST]);
            let parts = divide(&message, 5, 200).unwrap();
            let (last, others) = parts.split_last().unwrap();
            for part in others {
                assert_eq!(receiver.receive(&mut store, part), Ok(None));
            }
            assert_eq!(receiver.receive(&mut store, last), Ok(Some(Complete { sender: 5, aid: 200, length })));
            assert_eq!(receiver, Receiver(None));
            assert_eq!(store[..length], message);
            assert!(store[length..].iter().all(|&byte| byte == 0xEE));
        }
    }

    #[test]
    fn where_each_operation_writes() {
        let part = [1, 2, 3];
        let after = |receiver: Receiver, sequence| {
            let (mut left, mut store) = (receiver, vec![9; LONGEST]);
            let result = left.receive(&mut store, &operation(sequence, 2, 40, &part)).unwrap();
            let written: Vec<usize> = (0..LONGEST).filter(|&n| store[n] != 9).collect();
            (result, left, written)
        };
        let complete = |length| Some(Complete { sender: 2, aid: 40, length });
        assert_eq!(after(Receiver(None), Single), (complete(3), Receiver(None), vec![0, 1, 2]));
        assert_eq!(after(Receiver(None), First), (None, pending(2, 40, 3), vec![0, 1, 2]));
        assert_eq!(after(pending(2, 40, 300), Middle), (None, pending(2, 40, 303), vec![300, 301, 302]));
        assert_eq!(after(pending(2, 40, 1), Last), (complete(4), Receiver(None), vec![1, 2, 3]));
        assert_eq!(after(pending(2, 40, 4093), Middle), (None, pending(2, 40, 4096), vec![4093, 4094, 4095]));
        assert_eq!(after(pending(2, 40, 4093), Last), (complete(4096), Receiver(None), vec![4093, 4094, 4095]));
    }

    #[test]
    fn refusals_in_their_order() {
        // Each line mends the fault that the line before was refused for, and keeps those behind it.
        let (store, long, full) = (bytes(4096), bytes(257), bytes(256));
        refused(1, pending(8, 0, 0), &store[1..], &operation(First, 9, 0, &long));
        refused(10, pending(8, 0, 0), &store, &operation(First, 9, 0, &long));
        refused(8, pending(1, 2, 4000), &store, &operation(First, 9, 0, &long));
        refused(8, pending(1, 2, 4000), &store, &operation(First, 9, 0, &full));
        refused(12, pending(1, 2, 4000), &store, &operation(First, 3, 0, &full));
        refused(11, pending(1, 2, 4000), &store, &operation(Last, 3, 0, &full));
        refused(11, pending(1, 2, 4000), &store, &operation(Last, 1, 0, &full));
        refused(9, pending(1, 2, 4000), &store, &operation(Last, 1, 2, &full));
        assert!(pending(1, 2, 3840).receive(&mut store.clone(), &operation(Last, 1, 2, &full)).is_ok());
    }

    #[test]
    fn wrong_sizes_of_the_store() {
        for size in [0, 1, 2048, 4095, 4097, 8192] {
            refused(1, Receiver(None), &bytes(size), &operation(Single, 0, 0, &[5]));
        }
    }

    #[test]
    fn broken_receivers() {
        let (store, part) = (bytes(4096), [5]);
        for (sender, aid, count) in [(8, 0, 1), (0, 256, 1), (0, 0, 0), (0, 0, 4097), (1 << 32, 0, 1), (0, 1 << 32, 1), (0, 0, (1 << 32) + 1), (0, 0, u64::MAX)] {
            for sequence in Sequence::ALL {
                refused(10, pending(sender, aid, count), &store, &operation(sequence, 0, 0, &part));
            }
        }
        refused(9, pending(7, 255, 4096), &store, &operation(Middle, 7, 255, &part));
    }

    #[test]
    fn lengths_and_parties_of_an_operation() {
        let (store, long) = (bytes(4096), bytes(257));
        for sequence in Sequence::ALL {
            let receiver = if sequence.starts() { Receiver(None) } else { pending(0, 0, 1) };
            refused(8, receiver, &store, &operation(sequence, 0, 0, &[]));
            refused(8, receiver, &store, &operation(sequence, 0, 0, &long));
            refused(8, receiver, &store, &operation(sequence, 8, 0, &[5]));
            refused(8, receiver, &store, &operation(sequence, 0, 256, &[5]));
            assert!(receiver.clone().receive(&mut store.clone(), &operation(sequence, 0, 0, &long[1..])).is_ok());
        }
    }

    #[test]
    fn turns() {
        let store = bytes(4096);
        for sequence in [Middle, Last] {
            refused(12, Receiver(None), &store, &operation(sequence, 0, 0, &[5]));
        }
        for sequence in [Single, First] {
            refused(12, pending(0, 0, 1), &store, &operation(sequence, 0, 0, &[5]));
        }
    }
}
