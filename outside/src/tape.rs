//! The tape: numbers as groups of seven bits, records by one table of kinds and the rules of their fields.

pub const CUT: u32 = 5;
pub const BAD_NUMBER: u32 = 6;
pub const UNKNOWN_KIND: u32 = 7;
pub const FIELD_RANGE: u32 = 8;
pub const NO_ROOM: u32 = 9;

/// A record as the table has it: its kind and its fields, in order.
#[derive(Clone, Debug, PartialEq, Eq)]
pub struct Record {
    pub kind: u64,
    pub fields: Vec<u64>,
}

#[derive(Clone, Copy, Debug, PartialEq, Eq)]
pub struct Refused {
    pub number: u32,
    pub place: usize,
}

#[derive(Clone, Debug, PartialEq, Eq)]
pub enum Found {
    Record(Record, usize),
    Finished,
}

/// What a field must keep to, given those before it.
#[derive(Clone, Copy)]
enum Rule {
    UpTo(u64),
    Address,
    /// 0 to 7, and not the field before.
    OtherParty,
    /// 0 or 1, and 0 where the command two fields before is an invalidate or a copyback.
    Retried,
}

/// Any number of 32 bits.
const WORD: Rule = Rule::UpTo(u32::MAX as u64);
/// Any number of 64 bits, which is every number that has a spelling.
const CYCLES: Rule = Rule::UpTo(u64::MAX);

fn rules(kind: u64) -> Option<&'static [Rule]> {
    use Rule::*;
    Some(match kind {
        0 => &[UpTo(3), Address],
        1 => &[UpTo(3), Address, WORD],
        2 => &[UpTo(3), UpTo(63)],
        3 => &[UpTo(3), UpTo(4), UpTo(63), Retried],
        4 => &[UpTo(7), OtherParty, UpTo(255), UpTo(255)],
        5 => &[UpTo(7), OtherParty, UpTo(255), UpTo(1), WORD, UpTo(7)],
        6 => &[UpTo(3), WORD],
        8 => &[CYCLES],
        _ => return None,
    })
}

/// The number of fields of a kind, if there is such a kind.
pub fn field_count(kind: u64) -> Option<usize> {
    rules(kind).map(|r| r.len())
}

fn keeps(rule: Rule, before: &[u64], field: u64) -> bool {
    match rule {
        Rule::UpTo(most) => field <= most,
        Rule::Address => field % 4 == 0 && field <= 2044,
        Rule::OtherParty => field <= 7 && before.last() != Some(&field),
        Rule::Retried => field <= u64::from(!matches!(before[before.len() - 2], 2 | 3)),
    }
}

/// The number that starts at a place, and the place after it.
fn number(tape: &[u8], place: usize) -> Result<(u64, usize), Refused> {
    let mut sum = 0u64;
    for group in 0.. {
        let byte = *tape.get(place + group).ok_or(Refused { number: CUT, place })?;
        let ends = byte < 128;
        if (group == 9 && byte > 1) || (group > 0 && byte == 0) {
            return Err(Refused { number: BAD_NUMBER, place });
        }
        sum |= u64::from(byte % 128) << (7 * group);
        if ends {
            return Ok((sum, place + group + 1));
        }
    }
    unreachable!("a tenth group ends the number or breaks its spelling")
}

/// Puts the groups of a number behind the bytes that are there.
pub fn spell(mut number: u64, out: &mut Vec<u8>) {
    while number >= 128 {
        out.push(number as u8 | 128);
        number >>= 7;
    }
    out.push(number as u8);
}

/// The record at a place of the tape.
pub fn read(tape: &[u8], place: usize) -> Result<Found, Refused> {
    if place > tape.len() {
        return Err(Refused { number: CUT, place });
    }
    if place == tape.len() {
        return Ok(Found::Finished);
    }
    let (kind, mut at) = number(tape, place)?;
    let rules = rules(kind).ok_or(Refused { number: UNKNOWN_KIND, place })?;
    let mut fields = Vec::new();
    for &rule in rules {
        let (field, next) = number(tape, at)?;
        if !keeps(rule, &fields, field) {
            return Err(Refused { number: FIELD_RANGE, place: at });
        }
        fields.push(field);
        at = next;
    }
    Ok(Found::Record(Record { kind, fields }, at))
}

/// Tests a record's kind, and then its fields.
fn check(record: &Record) -> Result<(), u32> {
    let rules = rules(record.kind).ok_or(UNKNOWN_KIND)?;
    let mut fields = rules.iter().zip(&record.fields).enumerate();
    if record.fields.len() == rules.len() && fields.all(|(at, (&rule, &field))| keeps(rule, &record.fields[..at], field)) {
        Ok(())
    } else {
        Err(FIELD_RANGE)
    }
}

/// How many groups a number has: its lowest seven bits are one, and what is left above them has its own.
fn groups(number: u64) -> usize {
    match number / 128 {
        0 => 1,
        above => 1 + groups(above),
    }
}

/// How many bytes a record takes on the tape.
pub fn size(record: &Record) -> Result<usize, u32> {
    check(record)?;
    Ok(record.fields.iter().fold(groups(record.kind), |sum, &field| sum + groups(field)))
}

/// The bytes of a record, for a space of so many bytes.
pub fn write(record: &Record, room: usize) -> Result<Vec<u8>, u32> {
    check(record)?;
    let mut bytes = Vec::new();
    spell(record.kind, &mut bytes);
    for &field in &record.fields {
        spell(field, &mut bytes);
    }
    if bytes.len() > room {
        return Err(NO_ROOM);
    }
    Ok(bytes)
}

#[cfg(test)]
mod tests {
    use super::*;

    const TWO_TO_32: [u8; 5] = [0x80, 0x80, 0x80, 0x80, 0x10];
    const LARGEST: [u8; 10] = [0xFF, 0xFF, 0xFF, 0xFF, 0xFF, 0xFF, 0xFF, 0xFF, 0xFF, 0x01];

    fn refused(tape: &[u8], number: u32, place: usize) {
        assert_eq!(read(tape, 0), Err(Refused { number, place }), "{tape:02x?}");
    }

    fn record(kind: u64, fields: &[u64]) -> Record {
        Record { kind, fields: fields.to_vec() }
    }

    #[test]
    fn store_by_2_at_72_of_300() {
        let bytes = [0x01, 0x02, 0x48, 0xAC, 0x02];
        let store = record(1, &[2, 72, 300]);
        assert_eq!(write(&store, 5), Ok(bytes.to_vec()));
        assert_eq!(read(&bytes, 0), Ok(Found::Record(store.clone(), 5)));
        assert_eq!(read(&bytes, 5), Ok(Found::Finished));
        assert_eq!(read(&bytes, 6), Err(Refused { number: 5, place: 6 }));
        assert_eq!(write(&store, 4), Err(9));
        assert_eq!(write(&record(1, &[4, 72, 300]), 4), Err(8));
    }

    #[test]
    fn spellings() {
        refused(&[0x80, 0x00], 6, 0);
        refused(&[0x80, 0x80], 5, 0);
        refused(&[0x80; 5], 5, 0);
        refused(&[0x80; 9], 5, 0);
        refused(&[0x80; 10], 6, 0);
        refused(&[0x80; 11], 6, 0);
        refused(&[0x80, 0x80, 0x80, 0x80, 0x00], 6, 0);
        refused(&[0x00, 0x00, 0xC8, 0x84, 0x00], 6, 2);
        refused(&[0x08, 0x80, 0x80, 0x80, 0x80, 0x80, 0x80, 0x80, 0x80, 0x80], 5, 1);
        refused(&[0x08, 0xFF, 0xFF, 0xFF, 0xFF, 0xFF, 0xFF, 0xFF, 0xFF, 0xFF, 0x02], 6, 1);
        refused(&[0x08, 0xFF, 0xFF, 0xFF, 0xFF, 0xFF, 0xFF, 0xFF, 0xFF, 0xFF, 0x81], 6, 1);
        refused(&[0x08, 0xFF, 0xFF, 0xFF, 0xFF, 0xFF, 0xFF, 0xFF, 0xFF, 0xFF, 0x00], 6, 1);
        let most = [0x06, 0x00, 0xFF, 0xFF, 0xFF, 0xFF, 0x0F];
        assert_eq!(read(&most, 0), Ok(Found::Record(record(6, &[0, u64::from(u32::MAX)]), 7)));
        assert_eq!(read(&[0x00, 0x00, 0xC8, 0x04], 0), Ok(Found::Record(record(0, &[0, 584]), 4)));
    }

    /// Of all spellings of up to three bytes, those that are read are the ones that their number has.
    #[test]
    fn one_spelling_for_each_number() {
        for length in 1..=3 {
            let mut numbers = 0;
            for bytes in 0..1u32 << (8 * length) {
                let tape = &bytes.to_le_bytes()[..length];
                if let Ok((n, end)) = number(tape, 0) {
                    let mut spelled = Vec::new();
                    spell(n, &mut spelled);
                    assert_eq!(spelled, tape[..end]);
                    numbers += u32::from(end == length);
                }
            }
            // One byte: 0 to 127; two: up to 16,383; three: up to 2,097,151.
            assert_eq!(numbers, [128, 16_384 - 128, 2_097_152 - 16_384][length - 1]);
        }
    }

    #[test]
    fn stamps() {
        let spelled: [(u64, &[u8]); 9] = [
            (0, &[0x00]),
            (127, &[0x7F]),
            (128, &[0x80, 0x01]),
            (300, &[0xAC, 0x02]),
            (4_294_967_295, &[0xFF, 0xFF, 0xFF, 0xFF, 0x0F]),
            (4_294_967_296, &TWO_TO_32),
            (9_223_372_036_854_775_807, &[0xFF, 0xFF, 0xFF, 0xFF, 0xFF, 0xFF, 0xFF, 0xFF, 0x7F]),
            (9_223_372_036_854_775_808, &[0x80, 0x80, 0x80, 0x80, 0x80, 0x80, 0x80, 0x80, 0x80, 0x01]),
            (18_446_744_073_709_551_615, &LARGEST),
        ];
        for (cycles, groups) in spelled {
            let bytes = [&[0x08], groups].concat();
            let stamp = record(8, &[cycles]);
            assert_eq!(write(&stamp, bytes.len()), Ok(bytes.clone()));
            assert_eq!(write(&stamp, bytes.len() - 1), Err(9));
            assert_eq!(read(&bytes, 0), Ok(Found::Record(stamp, bytes.len())));
            refused(&bytes[..bytes.len() - 1], 5, 1);
        }
    }

    /// A group more from each power of 128 on, which is where a number has a bit more than the groups below it hold.
    #[test]
    fn sizes_of_stamps() {
        let sized = |cycles| size(&record(8, &[cycles]));
        assert_eq!(sized(0), Ok(2));
        assert_eq!(sized(1), Ok(2));
        let powers: [u64; 9] = [
            128,
            16_384,
            2_097_152,
            268_435_456,
            34_359_738_368,
            4_398_046_511_104,
            562_949_953_421_312,
            72_057_594_037_927_936,
            9_223_372_036_854_775_808,
        ];
        for (below, power) in powers.into_iter().enumerate() {
            assert_eq!(sized(power - 1), Ok(2 + below), "{power}");
            assert_eq!(sized(power), Ok(3 + below), "{power}");
        }
        assert_eq!(sized(18_446_744_073_709_551_615), Ok(11));
    }

    #[test]
    fn sizes() {
        assert_eq!(size(&record(0, &[3, 2044])), Ok(4));
        assert_eq!(size(&record(1, &[2, 72, 300])), Ok(5));
        assert_eq!(size(&record(1, &[3, 2044, 4_294_967_295])), Ok(9));
        assert_eq!(size(&record(2, &[3, 63])), Ok(3));
        assert_eq!(size(&record(3, &[3, 1, 63, 1])), Ok(5));
        assert_eq!(size(&record(4, &[7, 6, 128, 127])), Ok(6));
        assert_eq!(size(&record(5, &[7, 6, 255, 1, 4_294_967_295, 7])), Ok(12));
        assert_eq!(size(&record(6, &[3, 2_097_151])), Ok(5));
        for kind in [7, 9, u64::MAX] {
            assert_eq!(size(&record(kind, &[4])), Err(7), "{kind}");
        }
        let refused: [(u64, &[u64]); 6] = [(0, &[4, 2044]), (0, &[3]), (1, &[3, 72, 1 << 32]), (3, &[0, 2, 5, 1]), (4, &[7, 7, 5, 4]), (8, &[])];
        for (kind, fields) in refused {
            assert_eq!(size(&record(kind, fields)), Err(8), "{kind} {fields:?}");
        }
    }

    #[test]
    fn kinds() {
        refused(&[0x07, 0x80, 0x00], 7, 0);
        refused(&[0x09], 7, 0);
        refused(&[0x0A], 7, 0);
        refused(&TWO_TO_32, 7, 0);
        refused(&[0x88, 0x80, 0x80, 0x80, 0x10], 7, 0); // 2^32 + 8
        refused(&LARGEST, 7, 0);
        for kind in [7, 9, 10, 256, 1 << 32, (1 << 32) + 8, u64::MAX] {
            assert_eq!(write(&record(kind, &[0]), 0), Err(7));
        }
    }

    #[test]
    fn no_older_field_is_above_32_bits() {
        let records: [&[u8]; 7] = [&[0, 0, 0], &[1, 0, 0, 0], &[2, 0, 0], &[3, 0, 0, 0, 0], &[4, 0, 1, 0, 0], &[5, 0, 1, 0, 0, 0, 0], &[6, 0, 0]];
        for bytes in records {
            let whole = record(bytes[0].into(), &bytes[1..].iter().map(|&n| n.into()).collect::<Vec<u64>>());
            assert_eq!(read(bytes, 0), Ok(Found::Record(whole.clone(), bytes.len())));
            for at in 1..bytes.len() {
                refused(&[&bytes[..at], &TWO_TO_32].concat(), 8, at);
                refused(&[&bytes[..at], &LARGEST].concat(), 8, at);
                for number in [1 << 32, u64::MAX] {
                    let mut other = whole.clone();
                    other.fields[at - 1] = number;
                    assert_eq!(write(&other, 40), Err(8));
                }
            }
        }
        refused(&[0x01, 0x00, 0x00, 0xFF, 0xFF, 0xFF, 0xFF, 0x10], 8, 3);
    }

    #[test]
    fn ranges() {
        refused(&[0x00, 0x04, 0x00], 8, 1);
        refused(&[0x00, 0x00, 0x02], 8, 2);
        refused(&[0x00, 0x00, 0x80, 0x10], 8, 2); // 2,048
        refused(&[0x02, 0x00, 0x40], 8, 2); // block 64
        refused(&[0x03, 0x00, 0x02, 0x05, 0x01], 8, 4); // an invalidate is not retried
        refused(&[0x04, 0x03, 0x03, 0x00, 0x00], 8, 2); // to is from
        assert!(read(&[0x00, 0x00, 0xFC, 0x0F], 0).is_ok()); // 2,044
        assert!(read(&[0x02, 0x00, 0x3F], 0).is_ok()); // block 63
        assert!(read(&[0x03, 0x00, 0x01, 0x05, 0x01], 0).is_ok());
    }

    /// Commands 0, 1 and 4 may be retried, 2 and 3 may not, and there is none above 4.
    #[test]
    fn commands() {
        for (command, most) in [(0, 1), (1, 1), (2, 0), (3, 0), (4, 1)] {
            for retried in 0..4 {
                let (bytes, order) = ([0x03, 0x02, command, 0x05, retried], record(3, &[2, command.into(), 5, retried.into()]));
                if retried <= most {
                    assert_eq!(read(&bytes, 0), Ok(Found::Record(order.clone(), 5)));
                    assert_eq!(write(&order, 5), Ok(bytes.to_vec()));
                    assert_eq!(size(&order), Ok(5));
                } else {
                    refused(&bytes, 8, 4);
                    assert_eq!(write(&order, 5), Err(8));
                    assert_eq!(size(&order), Err(8));
                }
            }
        }
        for command in 5..128 {
            refused(&[0x03, 0x02, command, 0x05, 0x00], 8, 2);
            assert_eq!(write(&record(3, &[2, command.into(), 5, 0]), 5), Err(8));
        }
    }
}
