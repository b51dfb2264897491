//! Interrupts on the neighbour bench's J-Bus (document 02, T-14, with source document 000, section 3.6.1 and Table 5-3). A half of the
//! address cycle is a row of fields, tested from bit 63 down; the device is the row of the table whose pattern the agent ID fits.

pub const NOT_INTERRUPT: u32 = 7;
pub const OUT_OF_RANGE: u32 = 8;
pub const HALVES_DIFFER: u32 = 17;

/// What an agent ID names.
#[derive(Clone, Copy, Debug, PartialEq, Eq)]
pub enum Device {
    Processor,
    NotSupported,
    Illegal,
    Bridge0,
    Bridge1,
}
use Device::*;

impl Device {
    pub const ALL: [Device; 5] = [Processor, NotSupported, Illegal, Bridge0, Bridge1];
}

#[derive(Clone, Copy, Debug, PartialEq, Eq)]
pub struct Interrupt {
    /// CPU ID of the target port, which is a thread.
    pub target: u32,
    /// Agent ID of the source port.
    pub agent: u32,
    pub device: Device,
}

#[derive(Clone, Copy)]
enum Content {
    /// Ignored on reading, zero on writing.
    Reserved,
    /// One value alone, and the refusal of any other.
    Fixed(u64, u32),
    Target,
    Agent,
}
use Content::*;

/// Bits of J_AD, first and last, and what they are. 7 stands before 8, as their tests do.
const FIELDS: [(u32, u32, Content); 6] = [
    (63, 48, Reserved),
    (47, 43, Fixed(0x14, NOT_INTERRUPT)),
    (42, 41, Fixed(0, OUT_OF_RANGE)),
    (40, 36, Target),
    (35, 31, Agent),
    (30, 0, Fixed(0, OUT_OF_RANGE)),
];

/// Table 5-3, AID[4:0] and device. A bit "x" or "y" is not looked at.
const AGENTS: [(&str, Device); 10] = [
    ("x0000", Processor),
    ("x0001", Processor),
    ("x0010", Processor),
    ("x0011", Processor),
    ("x110y", Bridge0),
    ("x111y", Bridge1),
    ("x10yy", NotSupported),
    ("x0100", NotSupported),
    ("x0101", NotSupported),
    ("x011x", Illegal),
];

fn fits(pattern: &str, agent: u32) -> bool {
    pattern.bytes().rev().enumerate().all(|(bit, mark)| match mark {
        b'0' => agent >> bit & 1 == 0,
        b'1' => agent >> bit & 1 == 1,
        _ => true,
    })
}

/// The device of an agent ID of five bits: each fits one row.
fn device_of(agent: u32) -> Device {
    let row = AGENTS.iter().find(|(pattern, _)| fits(pattern, agent));
    row.expect("a row for every agent ID").1
}

/// Reads an address cycle: J_AD[127:64] and J_AD[63:0].
pub fn read(upper: u64, lower: u64) -> Result<Interrupt, u32> {
    if upper != lower {
        return Err(HALVES_DIFFER);
    }
    let (mut target, mut agent) = (0, 0);
    for (first, last, content) in FIELDS {
        let above = 63 - first;
        let value = lower << above >> above >> last;
        match content {
            Reserved => {}
            Fixed(only, refusal) if value != only => return Err(refusal),
            Fixed(..) => {}
            Target => target = value as u32,
            Agent => agent = value as u32,
        }
    }
    Ok(Interrupt { target, agent, device: device_of(agent) })
}

/// The address cycle, upper half and lower half, of an interrupt to a target from an agent.
pub fn write(target: u32, agent: u32) -> Result<(u64, u64), u32> {
    let mut half = 0;
    for (first, last, content) in FIELDS {
        let value = match content {
            Reserved => 0,
            Fixed(only, _) => only,
            Target => u64::from(target),
            Agent => u64::from(agent),
        };
        if value >> (first - last + 1) != 0 {
            return Err(OUT_OF_RANGE);
        }
        half |= value << last;
    }
    Ok((half, half))
}

#[cfg(test)]
mod tests {
    use super::*;

    /// Target 3 from agent 28, the paper's own.
    const EXAMPLE: u64 = 0x0000_A03E_0000_0000;

    fn both(half: u64) -> Result<Interrupt, u32> {
        read(half, half)
    }

    fn pairs() -> impl Iterator<Item = (u32, u32)> {
        (0..32).flat_map(|target| (0..32).map(move |agent| (target, agent)))
    }

    #[test]
    fn the_papers_example() {
        assert_eq!(write(3, 28), Ok((EXAMPLE, EXAMPLE)));
        assert_eq!(both(EXAMPLE), Ok(Interrupt { target: 3, agent: 28, device: Bridge0 }));
    }

    #[test]
    fn the_fields_are_all_bits_once() {
        assert_eq!((FIELDS[0].0, FIELDS[5].1), (63, 0));
        assert!(FIELDS.windows(2).all(|two| two[0].1 == two[1].0 + 1));
    }

    #[test]
    fn halves_at_the_edges() {
        assert_eq!(write(0, 0), Ok((0xA000_0000_0000, 0xA000_0000_0000)));
        assert_eq!(write(0, 1), Ok((0xA000_8000_0000, 0xA000_8000_0000)));
        assert_eq!(write(0, 31), Ok((0xA00F_8000_0000, 0xA00F_8000_0000)));
        assert_eq!(write(1, 0), Ok((0xA010_0000_0000, 0xA010_0000_0000)));
        assert_eq!(write(31, 0), Ok((0xA1F0_0000_0000, 0xA1F0_0000_0000)));
        assert_eq!(write(31, 31), Ok((0xA1FF_8000_0000, 0xA1FF_8000_0000)));
    }

    #[test]
    fn the_device_of_every_agent() {
        for agent in 0..32 {
            let expected = match agent % 16 {
                0..=3 => Processor,
                4 | 5 | 8..=11 => NotSupported,
                6 | 7 => Illegal,
                12 | 13 => Bridge0,
                _ => Bridge1,
            };
            let (half, _) = write(17, agent).unwrap();
            assert_eq!(both(half), Ok(Interrupt { target: 17, agent, device: expected }));
            assert_eq!(AGENTS.iter().filter(|(pattern, _)| fits(pattern, agent)).count(), 1);
        }
    }

    #[test]
    fn numbers_of_the_devices() {
        assert_eq!(Device::ALL.map(|device| device as u32), [0, 1, 2, 3, 4]);
    }

    #[test]
    fn every_pair_comes_back() {
        for (target, agent) in pairs() {
            let (upper, lower) = write(target, agent).unwrap();
            assert_eq!((upper, lower >> 48), (lower, 0));
            for reserved in [0, 1, 0x8000, 0x5A5A, 0xFFFF] {
                let read = both(lower | reserved << 48).unwrap();
                assert_eq!((read.target, read.agent), (target, agent));
                assert_eq!(write(read.target, read.agent), Ok((upper, lower)));
            }
        }
    }

    #[test]
    fn every_bit_flipped() {
        for (target, agent) in pairs() {
            let (half, _) = write(target, agent).unwrap();
            let plain = Interrupt { target, agent, device: device_of(agent) };
            for bit in 0..64 {
                let flipped = half ^ 1 << bit;
                let expected = match bit {
                    0..=30 | 41 | 42 => Err(8),
                    31..=35 => {
                        let agent = agent ^ 1 << (bit - 31);
                        Ok(Interrupt { agent, device: device_of(agent), ..plain })
                    }
                    36..=40 => Ok(Interrupt { target: target ^ 1 << (bit - 36), ..plain }),
                    43..=47 => Err(7),
                    _ => Ok(plain),
                };
                assert_eq!(both(flipped), expected, "{target} {agent} {bit}");
                assert_eq!(read(flipped, half), Err(17), "{target} {agent} {bit}");
                assert_eq!(read(half, flipped), Err(17), "{target} {agent} {bit}");
            }
        }
    }

    #[test]
    fn other_transactions() {
        for transaction in 0..32 {
            let half = EXAMPLE & !(0x1F << 43) | transaction << 43;
            assert_eq!(both(half).err(), if transaction == 0x14 { None } else { Some(7) });
        }
        assert_eq!(both(0), Err(7));
        assert_eq!(both(u64::MAX), Err(7));
    }

    #[test]
    fn zero_fields() {
        for field in 1..4 {
            assert_eq!(both(EXAMPLE | field << 41), Err(8));
        }
        for low in [1, 2, 0x4000_0000, 0x7FFF_FFFF] {
            assert_eq!(both(EXAMPLE | low), Err(8));
        }
    }

    #[test]
    fn refusals_in_their_order() {
        let other = EXAMPLE ^ 1 << 43;
        for fault in [1, 1 << 30, 1 << 41, 1 << 42] {
            assert_eq!(both(other | fault), Err(7), "7 comes before 8");
            assert_eq!(read(EXAMPLE | fault, EXAMPLE), Err(17), "17 comes before 8");
            assert_eq!(read(EXAMPLE | fault, EXAMPLE | fault | 1 << 63), Err(17), "17 comes before 8");
            assert_eq!(read(other | fault, other), Err(17), "17 comes before 7 and 8");
        }
        assert_eq!(read(other, EXAMPLE), Err(17), "17 comes before 7");
        assert_eq!(read(EXAMPLE, other), Err(17), "17 comes before 7");
        assert_eq!(read(other, other | 1 << 48), Err(17), "17 comes before 7");
    }

    #[test]
    fn what_is_not_written() {
        for number in [32, 33, 63, 64, 255, 256, 1 << 16, (1 << 16) + 3, 1 << 31, u32::MAX] {
            for good in [0, 3, 31] {
                assert_eq!(write(number, good), Err(8));
                assert_eq!(write(good, number), Err(8));
            }
            assert_eq!(write(number, number), Err(8));
        }
    }
}
