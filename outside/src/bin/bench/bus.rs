//! The bus in plain Rust: words at once, tests by ranges.

#[inline(never)]
pub fn trainer_parity(word: u64) -> u32 {
    let mut folded = word ^ word >> 4;
    folded ^= folded >> 2;
    folded ^= folded >> 1;
    // The lowest bit of each byte, byte 0 being the most significant, gathered into one byte.
    let odd = (folded & 0x0101_0101_0101_0101).swap_bytes().wrapping_mul(0x0102_0408_1020_4080) >> 56;
    !(odd as u32) & 255
}

#[inline(never)]
pub fn trainer_check(word: u64, set: u32, wrong: &mut u32, count: &mut u32) -> u32 {
    if set > 255 {
        return 8;
    }
    *wrong = trainer_parity(word) ^ set;
    *count = wrong.count_ones();
    0
}

#[inline(never)]
pub fn trainer_lanes(ra: u32, bct: u32, words: &mut u32, positions: &mut u32) -> u32 {
    if bct > 7 {
        return 8;
    }
    *positions = ((2 << bct) - 1) << (ra % 8);
    *words = if *positions > 255 { 2 } else { 1 };
    0
}

#[inline(never)]
pub fn trainer_plan(cycles: u32, cycle: u32, locked: u32, levels: &mut [u32; 4]) -> u32 {
    if locked > 1 || cycles == 0 || cycles > 64 || cycle == 0 || cycle > cycles {
        return 8;
    }
    let level = |asserted| u32::from(asserted);
    *levels = [level(cycle == 1), level(cycle < cycles), level(cycle + 1 < cycles), level(cycles >= 2 || locked == 1)];
    0
}

#[inline(never)]
pub fn trainer_class(code: u32, class: &mut u32, carried: &mut u32, error: &mut u32) -> u32 {
    (*class, *carried) = match code {
        0 => (0, 0),
        1 => (1, 0),
        2..=63 => (2, code),
        64..=127 => (3, code - 64),
        128..=130 => (code - 124, 0),
        131..=191 => (7, code),
        192..=255 => (8, code - 192),
        _ => return 8,
    };
    *error = code >> 7;
    0
}

#[inline(never)]
pub fn trainer_code(class: u32, carried: u32, code: &mut u32) -> u32 {
    *code = match (class, carried) {
        (0 | 1, 0) => class,
        (2, 2..=63) => carried,
        (3, 0..=63) => carried + 64,
        (4..=6, 0) => class + 124,
        (7, 131..=191) => carried,
        (8, 0..=63) => carried + 192,
        _ => return 8,
    };
    0
}
