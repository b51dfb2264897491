//! Interrupts in plain Rust, by masks and shifts.

/// The device by an agent ID's low four bits.
const DEVICES: [u32; 16] = [0, 0, 0, 0, 1, 1, 2, 2, 1, 1, 1, 1, 3, 3, 4, 4];

#[inline(never)]
pub fn trainer_read_interrupt(upper: u64, lower: u64, target: &mut u32, agent: &mut u32, device: &mut u32) -> u32 {
    if upper != lower {
        return 17;
    }
    if lower >> 43 & 31 != 0x14 {
        return 7;
    }
    if lower & (3 << 41 | 0x7FFF_FFFF) != 0 {
        return 8;
    }
    *target = (lower >> 36 & 31) as u32;
    *agent = (lower >> 31 & 31) as u32;
    *device = DEVICES[(*agent & 15) as usize];
    0
}

#[inline(never)]
pub fn trainer_write_interrupt(target: u32, agent: u32, upper: &mut u64, lower: &mut u64) -> u32 {
    if target > 31 || agent > 31 {
        return 8;
    }
    let half = 0x14 << 43 | u64::from(target) << 36 | u64::from(agent) << 31;
    (*upper, *lower) = (half, half);
    0
}
