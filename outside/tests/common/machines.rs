//! Random inputs of the machine's calls: calls, directories and sizes, mostly ones that are accepted.
use outside::machine::{Call, BLOCKS, DIRECTORY_BYTES, HOLDERS_PLACE, SET_PLACE, STEAL_PLACE};
use outside::random::Random;

/// A call by a few units on a few blocks that share slots, now and then with an argument that is out of range.
pub fn random_call(random: &mut Random, blocks: u32) -> Call {
    let far = [4, 5, 63, 64, 255, 256, 257, 1 << 16, (1 << 16) + 1, u32::MAX - 3, u32::MAX];
    let unit = if random.one_in(40) { random.pick(&far) } else { random.below(4) };
    let block = if random.one_in(3) { random.below(64) } else { random.below(blocks) * 16 % 64 + random.below(2) };
    let address = match random.below(40) {
        0 => random.pick(&[2044, 2046, 2047, 2048, 2052, 4096, u32::MAX - 3, u32::MAX]),
        1 => random.below(2100),
        _ => 32 * block + 4 * random.below(8),
    };
    match random.below(10) {
        0 => {
            let block = if random.one_in(10) { random.pick(&far) } else { block };
            Call::Flush { unit, block }
        }
        1..=5 => Call::Load { unit, address },
        _ => Call::Store { unit, address, value: random.next() },
    }
}

/// Puts the sets of holders into the directory that its slots have: of each block the units with a slot that has it, and another state than 0.
pub fn put_sets(directory: &mut [u8]) {
    let (slots, sets) = directory.split_at_mut(HOLDERS_PLACE);
    sets.fill(0);
    for (number, slot) in slots[..SET_PLACE].chunks_exact(2).enumerate() {
        if let Some(set) = sets.get_mut(usize::from(slot[1])).filter(|_| slot[0] != 0) {
            *set |= 1 << (number / 16);
        }
    }
}

/// A directory that keeps the rules, with many blocks in several units.
pub fn sound_directory(random: &mut Random) -> Vec<u8> {
    let mut bytes = vec![0; DIRECTORY_BYTES];
    let write_through = if random.one_in(3) { 0 } else { random.below(16) };
    bytes[SET_PLACE] = write_through as u8;
    bytes[STEAL_PLACE] = random.below(2) as u8;
    for slot in 0..16u32 {
        let block = |random: &mut Random| (16 * random.below(4) + slot) as u8;
        let owner = random.below(4);
        let exclusive = if random.one_in(2) && write_through >> owner & 1 == 0 { Some((owner, block(random))) } else { None };
        for unit in 0..4 {
            let at = 2 * (16 * unit + slot) as usize;
            match exclusive {
                Some((owner, own)) if owner == unit => bytes[at..at + 2].copy_from_slice(&[2, own]),
                _ => {
                    let other = block(random);
                    if random.below(3) > 0 && exclusive.map(|(_, own)| own) != Some(other) {
                        bytes[at..at + 2].copy_from_slice(&[1, other]);
                    }
                }
            }
        }
    }
    put_sets(&mut bytes);
    bytes
}

pub fn random_size(random: &mut Random, right: usize) -> usize {
    match random.below(12) {
        0 => random.pick(&[0, 1, right - 1, right + 1, right / 2, 2 * right, right - 2, right + 2]),
        _ => right,
    }
}

/// Changes the sets of holders of one block or of two: a unit more or less, the weights reversed, the set of another block, anything.
fn damage_sets(random: &mut Random, sets: &mut [u8]) {
    let block = |random: &mut Random| random.below(BLOCKS as u32) as usize;
    let (one, other) = (block(random), block(random));
    match random.below(8) {
        0 => sets[one] = random.byte(),
        1 => sets[one] = random.below(20) as u8,
        2 => sets[one] ^= 1 << random.below(8),
        3 => sets[one] = sets[one].reverse_bits() >> 4,
        4 => sets[one] = 0,
        5 => sets.swap(one, other),
        6 => sets.swap(one, (one + 16) % BLOCKS),
        _ => sets[one] = sets[other],
    }
}

/// A directory that mostly keeps the rules, else with some bytes that are anything, with an EM slot in any unit, with any set of write-through units, above
/// 15 too, with any steal, above 1 too, with damaged sets of holders, or of another size. Changed slots mostly have their sets.
pub fn random_directory(random: &mut Random) -> Vec<u8> {
    let mut directory = sound_directory(random);
    for _ in 0..random.pick(&[0, 0, 0, 1, 1, 2, 8]) {
        let at = random.below(HOLDERS_PLACE as u32) as usize;
        directory[at] = if random.one_in(2) { random.below(4) as u8 } else { random.byte() % 80 };
    }
    match random.below(60) {
        0 | 1 => directory.iter_mut().for_each(|byte| *byte = random.byte()),
        2 => directory[SET_PLACE] = random.byte(),
        3 | 4 => directory[SET_PLACE] = random.below(20) as u8,
        5 | 6 => {
            let slot = random.below(64) as usize;
            directory[2 * slot..2 * slot + 2].copy_from_slice(&[2, (16 * random.below(4) + slot as u32 % 16) as u8]);
        }
        7 => directory[STEAL_PLACE] = random.byte(),
        8 | 9 => directory[STEAL_PLACE] = random.below(4) as u8,
        _ => {}
    }
    if !random.one_in(8) {
        put_sets(&mut directory);
    }
    if random.one_in(4) {
        damage_sets(random, &mut directory[HOLDERS_PLACE..]);
    }
    let size = random_size(random, DIRECTORY_BYTES);
    directory.resize(size, 0);
    directory
}
