//! Document 01, "Parity, lanes, levels" and "Answer codes", with document 02's T-02: byte by byte, position by position, row by row.

/// A field breaks its stated range.
pub const FIELD_RANGE: u32 = 8;

/// Byte 0 is the most significant byte; its parity bit has weight 1. A byte and its parity bit together hold an odd count of ones.
pub fn parity(word: u64) -> u32 {
    let even = |byte: &u8| (0..8).filter(|bit| byte >> bit & 1 == 1).count() % 2 == 0;
    word.to_be_bytes().iter().enumerate().filter(|(_, byte)| even(byte)).map(|(place, _)| 1 << place).sum()
}

/// The wrong bytes beside a set of parity bits, and how many.
pub fn check(word: u64, set: u32) -> Result<(u32, u32), u32> {
    if set > 255 {
        return Err(FIELD_RANGE);
    }
    let right = parity(word);
    let wrong: Vec<u32> = (0..8).filter(|place| right >> place & 1 != set >> place & 1).collect();
    Ok((wrong.iter().map(|place| 1 << place).sum(), wrong.len() as u32))
}

/// BCT + 1 bytes from position RA mod 8 of the first 8-byte word onward: words, and the set of positions.
pub fn lanes(ra: u32, bct: u32) -> Result<(u32, u32), u32> {
    if bct > 7 {
        return Err(FIELD_RANGE);
    }
    let mut positions = 0;
    let mut place = ra % 8;
    for _ in 0..=bct {
        positions |= 1 << place;
        place += 1;
    }
    Ok((if positions > 0xFF { 2 } else { 1 }, positions))
}

/// BS in cycle 1 only, BUR in cycles 1 to n - 1, ET in cycles 1 to n - 2; ET at the request for n of 2 or more, or a locked transfer.
pub fn plan(n: u32, cycle: u32, locked: u32) -> Result<[u32; 4], u32> {
    if !(1..=64).contains(&n) || !(1..=n).contains(&cycle) || locked > 1 {
        return Err(FIELD_RANGE);
    }
    let last = |end: i64| u32::from(i64::from(cycle) <= end);
    Ok([u32::from(cycle == 1), last(i64::from(n) - 1), last(i64::from(n) - 2), u32::from(n >= 2 || locked == 1)])
}

/// The rows of the table: first and last code, what is taken off for the carried number (none where nothing is carried), error or not.
const ROWS: [(u32, u32, Option<u32>, bool); 9] = [
    (0, 0, None, false),
    (1, 1, None, false),
    (2, 63, Some(0), false),
    (64, 127, Some(64), false),
    (128, 128, None, true),
    (129, 129, None, true),
    (130, 130, None, true),
    (131, 191, Some(0), true),
    (192, 255, Some(192), true),
];

/// The row of a code, the carried number or 0, and whether it is an error.
pub fn class(code: u32) -> Result<(u32, u32, u32), u32> {
    let row = ROWS.iter().position(|row| (row.0..=row.1).contains(&code)).ok_or(FIELD_RANGE)?;
    Ok((row as u32, ROWS[row].2.map_or(0, |less| code - less), u32::from(ROWS[row].3)))
}

/// The code of a row with a carried number.
pub fn code(class: u32, carried: u32) -> Result<u32, u32> {
    let &(first, last, less, _) = ROWS.get(class as usize).ok_or(FIELD_RANGE)?;
    match less {
        None if carried == 0 => Ok(first),
        None => Err(FIELD_RANGE),
        Some(less) => carried.checked_add(less).filter(|code| (first..=last).contains(code)).ok_or(FIELD_RANGE),
    }
}

#[cfg(test)]
mod tests {
    use super::*;

    #[test]
    fn values_of_document_01() {
        assert_eq!((parity(0), parity(0x0100_0000_0000_0000)), (255, 254));
        assert_eq!((lanes(3, 6), lanes(0, 7), lanes(1, 7).map(|l| l.0)), (Ok((2, 0x03F8)), Ok((1, 0xFF)), Ok(2)));
        assert_eq!((plan(1, 1, 0), plan(1, 1, 1)), (Ok([1, 0, 0, 0]), Ok([1, 0, 0, 1])));
        assert_eq!([1, 2, 3].map(|cycle| plan(3, cycle, 0)), [Ok([1, 1, 1, 1]), Ok([0, 1, 0, 1]), Ok([0, 0, 0, 1])]);
        assert_eq!([63, 64, 127, 128, 191, 192].map(class), [Ok((2, 63, 0)), Ok((3, 0, 0)), Ok((3, 63, 0)), Ok((4, 0, 1)), Ok((7, 191, 1)), Ok((8, 0, 1))]);
    }
}
