//! The bus handler in plain Rust, on the lent numbers where they lie.

fn next(set: u32, last: u32) -> u32 {
    let start = last + 1 & 7;
    start + (set * 257 >> start).trailing_zeros() & 7
}

#[inline(never)]
pub fn trainer_arbitrate(state: &mut [u32], high: u32, low: u32, lck: u32, grant: &mut u32, unit: &mut u32) -> u32 {
    let [last_high, last_low, owner, ..] = state else {
        return 9;
    };
    if lck > 1 {
        return 8;
    }
    if high > 255 || low > 255 || *last_high > 7 || *last_low > 7 || *owner > 8 {
        return 10;
    }
    if lck == 0 {
        *owner = 8;
    } else if *owner == 8 {
        *owner = *last_low;
    }
    (*grant, *unit) = if high != 0 {
        *last_high = next(high, *last_high);
        (1, *last_high)
    } else if *owner < 8 && low >> *owner & 1 == 1 {
        *last_low = *owner;
        (2, *owner)
    } else if *owner < 8 || low == 0 {
        (0, 0)
    } else {
        *last_low = next(low, *last_low);
        (2, *last_low)
    };
    0
}
