//! Records and drills in plain Rust, as fast as they are easily written: a match on the kind, no allocation, text put straight into the space.
use crate::packed;

/// The number at a place and the place after it, or the number of refusal.
#[inline]
fn number(tape: &[u8], at: usize) -> Result<(u64, usize), u32> {
    match tape.get(at) {
        None => Err(5),
        Some(&first) if first < 128 => Ok((first as u64, at + 1)),
        Some(&first) => longer(tape, at, first),
    }
}

/// A number whose first group is not its last. Not inlined: this loop in the place of each field makes reading slower.
#[inline(never)]
fn longer(tape: &[u8], at: usize, first: u8) -> Result<(u64, usize), u32> {
    let mut sum = first as u64 & 127;
    for group in 1..9 {
        let Some(&byte) = tape.get(at + group) else { return Err(5) };
        if byte == 0 {
            return Err(6);
        }
        sum |= (byte as u64 & 127) << (7 * group);
        if byte < 128 {
            return Ok((sum, at + group + 1));
        }
    }
    match tape.get(at + 9) {
        None => Err(5),
        Some(1) => Ok((sum | 1 << 63, at + 10)),
        Some(_) => Err(6),
    }
}

/// A refusal's number and place.
type Refused = (u32, usize);

struct Reader<'a> {
    tape: &'a [u8],
    at: usize,
}

impl Reader<'_> {
    #[inline]
    fn field(&mut self, good: impl Fn(u64) -> bool) -> Result<u64, Refused> {
        match number(self.tape, self.at) {
            Err(refusal) => Err((refusal, self.at)),
            Ok((n, _)) if !good(n) => Err((8, self.at)),
            Ok((n, next)) => {
                self.at = next;
                Ok(n)
            }
        }
    }

    #[inline]
    fn upto(&mut self, most: u64) -> Result<u64, Refused> {
        self.field(|n| n <= most)
    }

    /// Any number of 32 bits.
    #[inline]
    fn word(&mut self) -> Result<u64, Refused> {
        self.upto(u32::MAX as u64)
    }

    #[inline]
    fn address(&mut self) -> Result<u64, Refused> {
        self.field(|n| n <= 2044 && n % 4 == 0)
    }
}

/// 1 for a command that may be retried, else 0.
#[inline]
fn most_retried(command: u64) -> u64 {
    (command < 2 || command == 4) as u64
}

/// Kind, fields, and the place after the record.
#[inline]
pub fn read(tape: &[u8], place: usize) -> Result<([u64; 7], usize), Refused> {
    let mut r = Reader { tape, at: place };
    let (kind, next) = number(tape, place).map_err(|refusal| (refusal, place))?;
    r.at = next;
    let mut n = [kind, 0, 0, 0, 0, 0, 0];
    match kind {
        0 => {
            n[1] = r.upto(3)?;
            n[2] = r.address()?;
        }
        1 => {
            n[1] = r.upto(3)?;
            n[2] = r.address()?;
            n[3] = r.word()?;
        }
        2 => {
            n[1] = r.upto(3)?;
            n[2] = r.upto(63)?;
        }
        3 => {
            n[1] = r.upto(3)?;
            n[2] = r.upto(4)?;
            n[3] = r.upto(63)?;
            n[4] = r.upto(most_retried(n[2]))?;
        }
        4 | 5 => {
            n[1] = r.upto(7)?;
            let from = n[1];
            n[2] = r.field(|to| to <= 7 && to != from)?;
            n[3] = r.upto(255)?;
            if kind == 4 {
                n[4] = r.upto(255)?;
            } else {
                n[4] = r.upto(1)?;
                n[5] = r.word()?;
                n[6] = r.upto(7)?;
            }
        }
        6 => {
            n[1] = r.upto(3)?;
            n[2] = r.word()?;
        }
        8 => n[1] = r.upto(u64::MAX)?,
        _ => return Err((7, place)),
    }
    Ok((n, r.at))
}

#[inline(never)]
pub fn trainer_read_record(tape: &[u8], place: usize, next: &mut usize, numbers: &mut [u64]) -> u32 {
    if numbers.len() < 7 {
        return 9;
    }
    if place == tape.len() {
        *next = place;
        return 0;
    }
    match read(tape, place) {
        Ok((n, after)) => {
            numbers[..7].copy_from_slice(&n);
            *next = after;
            0
        }
        Err((refusal, at)) => {
            *next = at;
            refusal
        }
    }
}

/// How many groups a number has: its significant bits divided by seven, rounded up, and one for zero. Up to 64 bits 9 / 64 does for 1 / 7.
#[inline]
fn groups(number: u64) -> usize {
    let bits = 64 - (number | 1).leading_zeros() as usize;
    (9 * bits + 64) / 64
}

/// The count of a kind's fields and the bytes of the record, where the fields keep their ranges. A field that is at most 127 by its range has
/// one byte.
#[inline]
fn valid(n: &[u64; 7]) -> Result<(usize, usize), u32> {
    let address = |a: u64| a <= 2044 && a % 4 == 0;
    let word = u32::MAX as u64;
    let long = |field: u64| (field > 127) as usize;
    let (count, size, good) = match n[0] {
        0 => (2, 3 + long(n[2]), n[1] <= 3 && address(n[2])),
        1 => (3, 3 + long(n[2]) + groups(n[3]), n[1] <= 3 && address(n[2]) && n[3] <= word),
        2 => (2, 3, n[1] <= 3 && n[2] <= 63),
        3 => (4, 5, n[1] <= 3 && n[2] <= 4 && n[3] <= 63 && n[4] <= most_retried(n[2])),
        4 => (4, 5 + long(n[3]) + long(n[4]), n[1] <= 7 && n[2] <= 7 && n[1] != n[2] && n[3] <= 255 && n[4] <= 255),
        5 => {
            let good = n[1] <= 7 && n[2] <= 7 && n[1] != n[2] && n[3] <= 255 && n[4] <= 1 && n[5] <= word && n[6] <= 7;
            (6, 6 + long(n[3]) + groups(n[5]), good)
        }
        6 => (2, 2 + groups(n[2]), n[1] <= 3 && n[2] <= word),
        8 => (1, 1 + groups(n[1]), true),
        _ => return Err(7),
    };
    if good {
        Ok((count, size))
    } else {
        Err(8)
    }
}

#[inline(never)]
pub fn trainer_record_size(numbers: &[u64], size: &mut usize) -> u32 {
    let Ok(n) = <&[u64; 7]>::try_from(numbers) else { return 8 };
    match valid(n) {
        Ok((_, bytes)) => {
            *size = bytes;
            0
        }
        Err(refusal) => refusal,
    }
}

#[inline(never)]
pub fn trainer_write_record(numbers: &[u64], space: &mut [u8], written: &mut usize) -> u32 {
    let Ok(n) = <&[u64; 7]>::try_from(numbers) else { return 8 };
    let (count, size) = match valid(n) {
        Ok(found) => found,
        Err(refusal) => return refusal,
    };
    if size > space.len() {
        return 9;
    }
    let mut at = 0;
    for &number in &n[..=count] {
        let mut left = number;
        while left >= 128 {
            space[at] = left as u8 | 128;
            at += 1;
            left >>= 7;
        }
        space[at] = left as u8;
        at += 1;
    }
    *written = at;
    0
}

/// Text in a lent space; what does not fit is dropped, and `overflow` says so.
struct Text<'a> {
    space: &'a mut [u8],
    at: usize,
    overflow: bool,
}

impl Text<'_> {
    #[inline]
    fn put(&mut self, bytes: &[u8]) {
        match self.space.get_mut(self.at..self.at + bytes.len()) {
            Some(place) => {
                place.copy_from_slice(bytes);
                self.at += bytes.len();
            }
            None => self.overflow = true,
        }
    }

    #[inline]
    fn decimal(&mut self, mut n: u64) {
        let mut digits = [0u8; 20];
        let mut first = 20;
        loop {
            first -= 1;
            digits[first] = b'0' + (n % 10) as u8;
            n /= 10;
            if n == 0 {
                break;
            }
        }
        self.put(&digits[first..]);
    }
}

/// The text for a tape. Like the proved drill, it goes through the machine's tested calls.
fn print(tape: &[u8], out: &mut Text) {
    if tape.len() > 65536 {
        out.put(b"refused 9 at 65536\n");
        return;
    }
    let (mut d, mut memory, mut cache) = ([0u8; 194], [0u8; 2048], [0u8; 2048]);
    let (mut place, mut calls, mut orders) = (0, 0u64, 0u64);
    while place < tape.len() {
        let n = match read(tape, place) {
            Ok((n, next)) => {
                place = next;
                n
            }
            Err((refusal, at)) => {
                out.put(b"refused ");
                out.decimal(refusal as u64);
                out.put(b" at ");
                out.decimal(at as u64);
                out.put(b"\n");
                return;
            }
        };
        let (word, answer, value): (&[u8], _, _) = match n[0] {
            0 => {
                let a = packed::tested_load(&mut d, &mut memory, &mut cache, n[1] as u32, n[2] as u32);
                (b"load ", a.count, Some(a.value as u64))
            }
            1 => {
                let a = packed::tested_store(&mut d, &mut memory, &mut cache, n[1] as u32, n[2] as u32, n[3] as u32);
                (b"store ", a.count, Some(n[3]))
            }
            2 => (b"flush ", packed::flush(&mut d, &mut memory, &cache, n[1] as usize, n[2] as u8).count, None),
            _ => continue,
        };
        out.put(word);
        out.decimal(n[1]);
        out.put(b" ");
        out.decimal(n[2]);
        if let Some(value) = value {
            out.put(b" ");
            out.decimal(value);
        }
        out.put(b" orders ");
        out.decimal(answer as u64);
        out.put(b"\n");
        calls += 1;
        orders += answer as u64;
    }
    out.put(b"total ");
    out.decimal(calls);
    out.put(b" calls ");
    out.decimal(orders);
    out.put(b" orders\n");
}

#[inline(never)]
pub fn trainer_drill(tape: &[u8], text: &mut [u8], written: &mut usize) -> u32 {
    let mut out = Text { space: text, at: 0, overflow: false };
    print(tape, &mut out);
    if out.overflow {
        return 9;
    }
    *written = out.at;
    0
}
