//! The cache machine. A unit is the kind of its board and a map from the blocks it holds to how it holds them, with the copies beside it;
//! whether steal is on stands beside the units, and for each block the units that hold it. The two stores and the directory's bytes are
//! taken in before a call and given back after it.
use std::collections::{BTreeMap, BTreeSet};

pub const UNITS: usize = 4;
pub const SLOTS: usize = 16;
pub const BLOCKS: usize = 64;
pub const BLOCK_BYTES: usize = 32;
pub const STORE_BYTES: usize = 2048;
/// Two bytes for each slot, slot s of unit u at 2 (16 u + s): state 0 I, 1 SU, 2 EM, then the block. Behind them the set of
/// the units that have a write-through board, whether steal is on, and for each block the set of the units that hold it.
pub const DIRECTORY_BYTES: usize = 194;
/// The place of the set of write-through units.
pub const SET_PLACE: usize = 128;
/// The place of steal.
pub const STEAL_PLACE: usize = 129;
/// The place of block 0's set of holders.
pub const HOLDERS_PLACE: usize = 130;

pub const WRONG_SIZE: u32 = 1;
pub const BROKEN_DIRECTORY: u32 = 2;
pub const NO_UNIT: u32 = 3;
pub const BAD_ADDRESS: u32 = 4;

/// The kind of a unit's board.
#[derive(Clone, Copy, Debug, PartialEq, Eq)]
pub enum Kind {
    Copyback,
    WriteThrough,
}

pub type Kinds = [Kind; UNITS];
pub const ALL_COPYBACK: Kinds = [Kind::Copyback; UNITS];

/// The kinds by the set of the units that have a write-through board, unit 0 having weight 1, unit 3 weight 8; `None` where the
/// set names a unit above 3.
pub fn kinds_of(set: u32) -> Option<Kinds> {
    let kind = |unit| if set >> unit & 1 == 1 { Kind::WriteThrough } else { Kind::Copyback };
    (set < 1 << UNITS).then(|| std::array::from_fn(kind))
}

/// Whether steal is on by its number, 1 or 0; `None` above that.
pub fn steal_of(number: u32) -> Option<bool> {
    (number <= 1).then_some(number == 1)
}

#[derive(Clone, Copy, Debug, PartialEq, Eq)]
pub enum Held {
    SharedUnmodified,
    ExclusiveModified,
}

#[derive(Clone, Copy, Debug, PartialEq, Eq)]
pub enum Command {
    Read = 0,
    ModifiedRead = 1,
    Invalidate = 2,
    Copyback = 3,
    MemoryWrite = 4,
}

#[derive(Clone, Copy, Debug, PartialEq, Eq)]
pub struct Order {
    pub unit: u32,
    pub command: Command,
    pub block: u32,
    pub retried: bool,
}

#[derive(Clone, Copy, Debug, PartialEq, Eq)]
pub enum Call {
    Load { unit: u32, address: u32 },
    Store { unit: u32, address: u32, value: u32 },
    Flush { unit: u32, block: u32 },
}

/// What an accepted call answers: the loaded value (0 for a store and a flush) and the orders.
#[derive(Clone, Debug, Default, PartialEq, Eq)]
pub struct Reply {
    pub value: u32,
    pub orders: Vec<Order>,
}

/// Where the newest 32 bytes of a block lie.
#[derive(Clone, Copy, Debug, PartialEq, Eq)]
pub enum Newest {
    Memory { offset: usize },
    Cache { offset: usize },
}

/// The set of the units that hold a block, unit 0 having weight 1, unit 3 weight 8, and how many they are.
#[derive(Clone, Copy, Debug, PartialEq, Eq)]
pub struct Holders {
    pub set: u32,
    pub count: u32,
}

type Line = [u8; BLOCK_BYTES];

#[derive(Clone, Debug, PartialEq, Eq)]
struct Unit {
    kind: Kind,
    held: BTreeMap<u32, Held>,
    copies: [Line; SLOTS],
}

#[derive(Clone, Debug, PartialEq, Eq)]
pub struct Machine {
    units: Vec<Unit>,
    memory: Vec<Line>,
    steal: bool,
    holders: Vec<BTreeSet<usize>>,
}

/// What the bytes of a directory say: the units' kinds and the blocks they hold, whether steal is on, and the holders of each block.
struct Directory {
    kinds: Kinds,
    held: Vec<BTreeMap<u32, Held>>,
    steal: bool,
    holders: Vec<BTreeSet<usize>>,
}

fn lines(store: &[u8]) -> Vec<Line> {
    store.chunks_exact(BLOCK_BYTES).map(|c| c.try_into().expect("a chunk is 32 bytes")).collect()
}

fn slot_of(block: u32) -> usize {
    block as usize % SLOTS
}

/// The units of a set; `None` where it names a unit above 3.
fn members(set: u8) -> Option<BTreeSet<usize>> {
    (set < 1 << UNITS).then(|| (0..UNITS).filter(|unit| set >> unit & 1 == 1).collect())
}

/// The set of these units.
fn set_of(units: &BTreeSet<usize>) -> u8 {
    units.iter().fold(0, |set, unit| set | 1 << unit)
}

/// A block's set and its count of holders: tests 4.
fn holders_of(holders: &[BTreeSet<usize>], block: u32) -> Result<Holders, u32> {
    let units = holders.get(block as usize).ok_or(BAD_ADDRESS)?;
    Ok(Holders { set: set_of(units).into(), count: units.len() as u32 })
}

/// A block's set and its count of holders by a directory's bytes: tests 2, then 4.
pub fn holders_in(directory: &[u8], block: u32) -> Result<Holders, u32> {
    holders_of(&contents(directory).ok_or(BROKEN_DIRECTORY)?.holders, block)
}

/// What the bytes say, or `None` where they break a rule of the directory.
fn contents(directory: &[u8]) -> Option<Directory> {
    if directory.len() != DIRECTORY_BYTES {
        return None;
    }
    let kinds = kinds_of(directory[SET_PLACE].into())?;
    let steal = steal_of(directory[STEAL_PLACE].into())?;
    let holders = directory[HOLDERS_PLACE..].iter().map(|&set| members(set)).collect::<Option<Vec<_>>>()?;
    let mut units = vec![BTreeMap::new(); UNITS];
    for (number, pair) in directory[..SET_PLACE].chunks_exact(2).enumerate() {
        let (unit, slot, block) = (number / SLOTS, number % SLOTS, pair[1] as u32);
        let held = match pair[0] {
            0 if block == 0 => continue,
            1 => Held::SharedUnmodified,
            2 if kinds[unit] == Kind::Copyback => Held::ExclusiveModified,
            _ => return None,
        };
        if block as usize >= BLOCKS || slot_of(block) != slot {
            return None;
        }
        units[unit].insert(block, held);
    }
    for (block, kept) in holders.iter().enumerate() {
        let found: BTreeMap<usize, Held> = units.iter().enumerate().filter_map(|(n, unit)| Some((n, *unit.get(&(block as u32))?))).collect();
        if found.values().any(|&held| held == Held::ExclusiveModified) && found.len() > 1 {
            return None;
        }
        if !found.keys().eq(kept) {
            return None;
        }
    }
    Some(Directory { kinds, held: units, steal, holders })
}

impl Machine {
    /// All slots invalid, all sets of holders empty, the cache store all zeros, memory as lent, the boards' kinds and steal as chosen.
    pub fn cold(memory: &[u8], kinds: Kinds, steal: bool) -> Machine {
        let unit = |kind| Unit { kind, held: BTreeMap::new(), copies: [[0; BLOCK_BYTES]; SLOTS] };
        Machine { units: kinds.map(unit).to_vec(), memory: lines(memory), steal, holders: vec![BTreeSet::new(); BLOCKS] }
    }

    /// The machine that directory and stores describe: tests 1, then 2.
    pub fn open(directory: &[u8], memory: &[u8], cache: &[u8]) -> Result<Machine, u32> {
        if memory.len() != STORE_BYTES || cache.len() != STORE_BYTES {
            return Err(WRONG_SIZE);
        }
        let Directory { kinds, held, steal, holders } = contents(directory).ok_or(BROKEN_DIRECTORY)?;
        let copies = lines(cache);
        let units = kinds
            .into_iter()
            .zip(held)
            .zip(copies.chunks_exact(SLOTS))
            .map(|((kind, held), copies)| Unit { kind, held, copies: copies.try_into().expect("sixteen slots") })
            .collect();
        Ok(Machine { units, memory: lines(memory), steal, holders })
    }

    pub fn directory(&self) -> Vec<u8> {
        let mut bytes = vec![0; DIRECTORY_BYTES];
        for (number, unit) in self.units.iter().enumerate() {
            for (&block, &held) in &unit.held {
                let at = 2 * (SLOTS * number + slot_of(block));
                bytes[at] = if held == Held::ExclusiveModified { 2 } else { 1 };
                bytes[at + 1] = block as u8;
            }
            bytes[SET_PLACE] |= u8::from(unit.kind == Kind::WriteThrough) << number;
        }
        bytes[STEAL_PLACE] = self.steal.into();
        for (place, units) in bytes[HOLDERS_PLACE..].iter_mut().zip(&self.holders) {
            *place = set_of(units);
        }
        bytes
    }

    pub fn memory(&self) -> Vec<u8> {
        self.memory.concat()
    }

    pub fn cache(&self) -> Vec<u8> {
        self.units.iter().flat_map(|unit| unit.copies.concat()).collect()
    }

    pub fn call(&mut self, call: Call) -> Result<Reply, u32> {
        match call {
            Call::Load { unit, address } => {
                let (unit, block, offset) = target(unit, address)?;
                Ok(self.load(unit, block, offset))
            }
            Call::Store { unit, address, value } => {
                let (unit, block, offset) = target(unit, address)?;
                Ok(match self.units[unit].kind {
                    Kind::Copyback => self.store(unit, block, offset, value),
                    Kind::WriteThrough => self.write_through(unit, block, offset, value),
                })
            }
            Call::Flush { unit, block } => {
                if unit as usize >= UNITS {
                    return Err(NO_UNIT);
                }
                if block as usize >= BLOCKS {
                    return Err(BAD_ADDRESS);
                }
                Ok(self.flush(unit as usize, block))
            }
        }
    }

    /// Where the newest bytes of a block lie: the cache of the unit that has it EM, else memory.
    pub fn peek(&self, block: u32) -> Result<Newest, u32> {
        if block as usize >= BLOCKS {
            return Err(BAD_ADDRESS);
        }
        Ok(match self.modifier(block) {
            Some(unit) => Newest::Cache { offset: 512 * unit + 32 * slot_of(block) },
            None => Newest::Memory { offset: 32 * block as usize },
        })
    }

    /// A block's set and its count of holders.
    pub fn holders(&self, block: u32) -> Result<Holders, u32> {
        holders_of(&self.holders, block)
    }

    /// The unit comes to hold the block, or to hold it otherwise.
    fn hold(&mut self, unit: usize, block: u32, held: Held) {
        self.units[unit].held.insert(block, held);
        self.holders[block as usize].insert(unit);
    }

    /// The unit does not hold the block any more, if it did.
    fn release(&mut self, unit: usize, block: u32) {
        self.units[unit].held.remove(&block);
        self.holders[block as usize].remove(&unit);
    }

    /// No other unit than this one holds the block any more.
    fn release_others(&mut self, unit: usize, block: u32) {
        for other in (0..UNITS).filter(|&other| other != unit) {
            self.release(other, block);
        }
    }

    fn modifier(&self, block: u32) -> Option<usize> {
        (0..UNITS).find(|&unit| self.units[unit].held.get(&block) == Some(&Held::ExclusiveModified))
    }

    fn load(&mut self, unit: usize, block: u32, offset: usize) -> Reply {
        let mut orders = Vec::new();
        if !self.units[unit].held.contains_key(&block) {
            self.fetch(unit, block, Command::Read, &mut orders);
        }
        let word = &self.units[unit].copies[slot_of(block)][offset..offset + 4];
        Reply { value: word.iter().fold(0, |sum, &byte| sum << 8 | byte as u32), orders }
    }

    /// A store of a copyback board.
    fn store(&mut self, unit: usize, block: u32, offset: usize, value: u32) -> Reply {
        let mut orders = Vec::new();
        match self.units[unit].held.get(&block) {
            Some(Held::ExclusiveModified) => {}
            Some(Held::SharedUnmodified) => orders.push(order(unit, Command::Invalidate, block, false)),
            None => self.fetch(unit, block, Command::ModifiedRead, &mut orders),
        }
        self.release_others(unit, block);
        self.hold(unit, block, Held::ExclusiveModified);
        put(&mut self.units[unit].copies[slot_of(block)], offset, value);
        Reply { value: 0, orders }
    }

    /// A store of a write-through board: memory and the board's own copy, where it holds the block, take the word, and no other
    /// unit holds the block any more.
    fn write_through(&mut self, unit: usize, block: u32, offset: usize, value: u32) -> Reply {
        let mut orders = Vec::new();
        self.request(unit, Command::MemoryWrite, block, &mut orders);
        put(&mut self.memory[block as usize], offset, value);
        self.release_others(unit, block);
        if self.units[unit].held.contains_key(&block) {
            put(&mut self.units[unit].copies[slot_of(block)], offset, value);
        }
        Reply { value: 0, orders }
    }

    fn flush(&mut self, unit: usize, block: u32) -> Reply {
        let mut orders = Vec::new();
        if self.units[unit].held.get(&block) == Some(&Held::ExclusiveModified) {
            self.copyback(unit, block, &mut orders);
        }
        self.release(unit, block);
        Reply { value: 0, orders }
    }

    /// The block's place in the unit is emptied, the order given, the copy filled.
    fn fetch(&mut self, unit: usize, block: u32, command: Command, orders: &mut Vec<Order>) {
        let slot = slot_of(block);
        let before = self.units[unit].held.iter().find(|(&b, _)| slot_of(b) == slot).map(|(&b, &h)| (b, h));
        if let Some((old, held)) = before {
            if held == Held::ExclusiveModified {
                self.copyback(unit, old, orders);
            }
            self.release(unit, old);
        }
        self.units[unit].copies[slot] = self.read(unit, command, block, orders);
        self.hold(unit, block, Held::SharedUnmodified);
    }

    /// The bytes that a read or modified read brings. With steal on a retried one is not given again: the bytes are those that pass
    /// in the holder's copyback.
    fn read(&mut self, unit: usize, command: Command, block: u32, orders: &mut Vec<Order>) -> Line {
        match self.modifier(block) {
            Some(holder) if self.steal => {
                self.retry(unit, command, block, holder, orders);
                self.units[holder].copies[slot_of(block)]
            }
            _ => {
                self.request(unit, command, block, orders);
                self.memory[block as usize]
            }
        }
    }

    /// The order. Where another unit has the block EM, it is retried, and then given again.
    fn request(&mut self, unit: usize, command: Command, block: u32, orders: &mut Vec<Order>) {
        if let Some(holder) = self.modifier(block) {
            self.retry(unit, command, block, holder, orders);
        }
        orders.push(order(unit, command, block, false));
    }

    /// The order, retried: the unit that has the block EM copies it back and keeps it SU.
    fn retry(&mut self, unit: usize, command: Command, block: u32, holder: usize, orders: &mut Vec<Order>) {
        orders.push(order(unit, command, block, true));
        self.copyback(holder, block, orders);
        self.hold(holder, block, Held::SharedUnmodified);
    }

    fn copyback(&mut self, unit: usize, block: u32, orders: &mut Vec<Order>) {
        orders.push(order(unit, Command::Copyback, block, false));
        self.memory[block as usize] = self.units[unit].copies[slot_of(block)];
    }
}

/// Puts a word into a block, most significant byte first.
fn put(line: &mut Line, offset: usize, value: u32) {
    for (place, shift) in [24, 16, 8, 0].into_iter().enumerate() {
        line[offset + place] = (value >> shift) as u8;
    }
}

fn order(unit: usize, command: Command, block: u32, retried: bool) -> Order {
    Order { unit: unit as u32, command, block, retried }
}

/// Unit, block and offset in the block of a load or a store: tests 3, then 4.
fn target(unit: u32, address: u32) -> Result<(usize, u32, usize), u32> {
    if unit as usize >= UNITS {
        return Err(NO_UNIT);
    }
    if address % 4 != 0 || address > 2044 {
        return Err(BAD_ADDRESS);
    }
    Ok((unit as usize, address / 32, (address % 32) as usize))
}

#[cfg(test)]
mod tests {
    use super::*;
    use Command::*;

    fn cold() -> Machine {
        Machine::cold(&[0; STORE_BYTES], ALL_COPYBACK, false)
    }

    /// Cold, with write-through boards for the units of the set; a byte of memory is its block's number and 100.
    fn machine(set: u32, steal: bool) -> Machine {
        let memory: Vec<u8> = (0..STORE_BYTES).map(|place| (100 + place / BLOCK_BYTES) as u8).collect();
        Machine::cold(&memory, kinds_of(set).unwrap(), steal)
    }

    fn mixed(set: u32) -> Machine {
        machine(set, false)
    }

    fn stealing(set: u32) -> Machine {
        machine(set, true)
    }

    fn load(unit: u32, address: u32) -> Call {
        Call::Load { unit, address }
    }

    fn store(unit: u32, address: u32, value: u32) -> Call {
        Call::Store { unit, address, value }
    }

    fn orders(machine: &mut Machine, call: Call) -> Vec<Order> {
        machine.call(call).unwrap().orders
    }

    /// A directory with this set of write-through units, these slots (number, state, block), and the sets of holders that they have.
    fn directory_of(write_through: u8, slots: &[(usize, u8, u8)]) -> [u8; DIRECTORY_BYTES] {
        let mut directory = [0; DIRECTORY_BYTES];
        directory[128] = write_through;
        for &(slot, state, block) in slots {
            directory[2 * slot..2 * slot + 2].copy_from_slice(&[state, block]);
            if let Some(set) = directory.get_mut(130 + block as usize).filter(|_| state != 0) {
                *set |= [1, 2, 4, 8][slot / SLOTS];
            }
        }
        directory
    }

    fn broken(directory: &[u8]) -> bool {
        let store = [0; STORE_BYTES];
        let (opened, asked) = (Machine::open(directory, &store, &store), holders_in(directory, 0));
        assert_eq!(opened.err(), asked.err());
        asked == Err(2)
    }

    /// The valid slots: unit, state (1 SU, 2 EM), block.
    fn valid(machine: &Machine) -> Vec<(usize, u8, u8)> {
        let bytes = machine.directory();
        (0..UNITS * SLOTS).filter(|n| bytes[2 * n] != 0).map(|n| (n / SLOTS, bytes[2 * n], bytes[2 * n + 1])).collect()
    }

    #[test]
    fn words_are_most_significant_byte_first() {
        let mut machine = cold();
        machine.call(store(2, 72, 300)).unwrap();
        assert_eq!(machine.cache()[1096..1100], [0, 0, 1, 0x2C]);
        assert_eq!(machine.memory()[72..76], [0, 0, 0, 0]);
        assert_eq!(machine.peek(2), Ok(Newest::Cache { offset: 1088 }));
        let reply = machine.call(Call::Flush { unit: 2, block: 2 }).unwrap();
        assert_eq!(reply.orders, [order(2, Copyback, 2, false)]);
        assert_eq!(machine.memory()[72..76], [0, 0, 1, 0x2C]);
        assert_eq!(machine.cache()[1096..1100], [0, 0, 1, 0x2C]);
        assert_eq!(machine.peek(2), Ok(Newest::Memory { offset: 64 }));
        assert_eq!(machine.directory(), [0; DIRECTORY_BYTES]);
    }

    #[test]
    fn four_orders_of_one_load() {
        let mut machine = cold();
        machine.call(store(0, 72, 9)).unwrap();
        machine.call(store(1, 584, 1)).unwrap();
        let reply = machine.call(load(1, 72)).unwrap();
        let orders = [order(1, Copyback, 18, false), order(1, Read, 2, true), order(0, Copyback, 2, false), order(1, Read, 2, false)];
        assert_eq!(reply, Reply { value: 9, orders: orders.to_vec() });
    }

    #[test]
    fn a_store_to_a_shared_block_invalidates() {
        let mut machine = cold();
        machine.call(load(0, 72)).unwrap();
        machine.call(load(3, 72)).unwrap();
        assert_eq!(machine.call(store(3, 72, 7)).unwrap().orders, [order(3, Invalidate, 2, false)]);
        assert_eq!(machine.directory(), directory_of(0, &[(48 + 2, 2, 2)]));
    }

    #[test]
    fn refusals_in_their_order() {
        let mut machine = cold();
        assert_eq!(machine.call(load(4, 2)), Err(3));
        assert_eq!(machine.call(load(3, 2)), Err(4));
        assert_eq!(machine.call(load(3, 2048)), Err(4));
        assert!(machine.call(load(3, 2044)).is_ok());
        assert_eq!(machine.call(Call::Flush { unit: 256, block: 64 }), Err(3));
        assert_eq!(machine.call(Call::Flush { unit: 0, block: 64 }), Err(4));
        assert!(machine.call(Call::Flush { unit: 0, block: 63 }).is_ok());
        let (good, store) = ([0; DIRECTORY_BYTES], [0; STORE_BYTES]);
        assert!(Machine::open(&good, &store, &store).is_ok());
        assert_eq!(Machine::open(&good, &store[1..], &store), Err(1));
        assert_eq!(Machine::open(&good[1..], &store[1..], &store), Err(1));
        assert_eq!(Machine::open(&good[1..], &store, &store), Err(2));
    }

    #[test]
    fn what_breaks_a_directory() {
        let broken = |slots: &[(usize, u8, u8)]| broken(&directory_of(0, slots));
        assert!(!broken(&[(2, 1, 18), (18, 1, 18), (34, 2, 2)]));
        assert!(broken(&[(2, 0, 2)]), "an invalid slot has block 0");
        assert!(broken(&[(2, 3, 2)]), "no such state");
        assert!(broken(&[(2, 1, 3)]), "block mod 16 is the slot");
        assert!(broken(&[(2, 1, 66)]), "a block is at most 63");
        assert!(broken(&[(2, 2, 18), (50, 1, 18)]), "EM in one unit, valid in another");
        assert!(broken(&[(2, 2, 18), (50, 2, 18)]), "EM in two units");
    }

    #[test]
    fn what_breaks_a_mixed_directory() {
        let broken = |set: u8, slots: &[(usize, u8, u8)]| broken(&directory_of(set, slots));
        for unit in 0..UNITS {
            let slot = 16 * unit + 2;
            assert!(broken(1 << unit, &[(slot, 2, 18)]), "EM in write-through unit {unit}");
            assert!(!broken(1 << unit, &[(slot, 1, 18)]), "SU in write-through unit {unit}");
            assert!(!broken(15 - (1 << unit), &[(slot, 2, 18)]), "EM in unit {unit}, the only copyback one");
            assert!(broken(15, &[(slot, 2, 18)]), "EM where all units are write-through");
        }
        for set in 0..=255 {
            assert_eq!(broken(set, &[]), set > 15, "set {set}");
        }
        assert!(!broken(2, &[(18, 1, 18), (50, 1, 18)]), "a write-through and a copyback unit both SU");
        assert!(broken(2, &[(18, 1, 18), (50, 2, 18)]), "EM beside a write-through unit");
    }

    #[test]
    fn refusal_2_has_its_place_on_mixed_machines() {
        let (mut directory, bytes) = ([0; DIRECTORY_BYTES], [0; STORE_BYTES]);
        directory[128] = 16;
        assert_eq!(Machine::open(&directory, &bytes[1..], &bytes), Err(1));
        assert_eq!(Machine::open(&directory, &bytes, &bytes), Err(2));
        directory = directory_of(1, &[(0, 2, 0)]);
        assert_eq!(Machine::open(&directory, &bytes, &bytes[1..]), Err(1));
        assert_eq!(Machine::open(&directory, &bytes, &bytes), Err(2));
        directory[0] = 1;
        let mut machine = Machine::open(&directory, &bytes, &bytes).unwrap();
        assert_eq!(machine.call(store(4, 2, 0)), Err(3));
        assert_eq!(machine.call(store(0, 2, 0)), Err(4));
        assert_eq!((&machine.directory()[..], machine.memory()), (&directory[..], bytes.to_vec()));
    }

    #[test]
    fn kinds_by_their_set() {
        use Kind::{Copyback, WriteThrough};
        assert_eq!(kinds_of(0), Some(ALL_COPYBACK));
        assert_eq!(kinds_of(1), Some([WriteThrough, Copyback, Copyback, Copyback]));
        assert_eq!(kinds_of(10), Some([Copyback, WriteThrough, Copyback, WriteThrough]));
        assert_eq!(kinds_of(15), Some([WriteThrough; UNITS]));
        for set in [16, 17, 32, 256, 1 << 31, u32::MAX] {
            assert_eq!(kinds_of(set), None, "{set}");
        }
        for set in 0..16 {
            let mut directory = [0; DIRECTORY_BYTES];
            directory[128] = set as u8;
            assert_eq!(mixed(set).directory(), directory);
        }
    }

    #[test]
    fn a_write_through_store_that_hits() {
        let mut machine = mixed(2);
        machine.call(load(1, 72)).unwrap();
        let (mut memory, mut cache) = (machine.memory(), machine.cache());
        assert_eq!(orders(&mut machine, store(1, 76, 0x0102_0304)), [order(1, MemoryWrite, 2, false)]);
        memory[76..80].copy_from_slice(&[1, 2, 3, 4]);
        cache[588..592].copy_from_slice(&[1, 2, 3, 4]);
        assert_eq!((machine.memory(), machine.cache()), (memory, cache));
        assert_eq!(valid(&machine), [(1, 1, 2)]);
        assert_eq!(machine.peek(2), Ok(Newest::Memory { offset: 64 }));
        assert_eq!(machine.call(load(1, 76)), Ok(Reply { value: 0x0102_0304, orders: vec![] }));
    }

    #[test]
    fn a_write_through_store_that_misses_takes_no_slot() {
        let mut machine = mixed(2);
        machine.call(load(1, 584)).unwrap();
        let (mut memory, cache) = (machine.memory(), machine.cache());
        assert_eq!(orders(&mut machine, store(1, 72, 0x0102_0304)), [order(1, MemoryWrite, 2, false)]);
        memory[72..76].copy_from_slice(&[1, 2, 3, 4]);
        assert_eq!((machine.memory(), machine.cache()), (memory, cache));
        assert_eq!(valid(&machine), [(1, 1, 18)]);
        assert_eq!(machine.call(load(1, 584)), Ok(Reply { value: 0x7676_7676, orders: vec![] }));
        let mut empty = mixed(2);
        assert_eq!(orders(&mut empty, store(1, 72, 5)), [order(1, MemoryWrite, 2, false)]);
        assert_eq!(valid(&empty), []);
        assert_eq!(empty.cache(), [0; STORE_BYTES]);
    }

    #[test]
    fn a_write_through_store_is_retried_once() {
        let mut machine = mixed(2);
        machine.call(store(3, 72, 9)).unwrap();
        machine.call(load(1, 584)).unwrap();
        let (mut memory, cache) = (machine.memory(), machine.cache());
        let given = [order(1, MemoryWrite, 2, true), order(3, Copyback, 2, false), order(1, MemoryWrite, 2, false)];
        assert_eq!(orders(&mut machine, store(1, 76, 0x0102_0304)), given);
        memory[72..80].copy_from_slice(&[0, 0, 0, 9, 1, 2, 3, 4]);
        assert_eq!((machine.memory(), machine.cache()), (memory, cache));
        assert_eq!(valid(&machine), [(1, 1, 18)]);
        assert_eq!(orders(&mut machine, store(1, 72, 8)), [order(1, MemoryWrite, 2, false)]);
    }

    #[test]
    fn a_write_through_store_leaves_no_other_holder() {
        let mut machine = mixed(10);
        for unit in 0..4 {
            machine.call(load(unit, 72)).unwrap();
        }
        machine.call(load(2, 96)).unwrap();
        let mut cache = machine.cache();
        assert_eq!(orders(&mut machine, store(1, 72, 0x0102_0304)), [order(1, MemoryWrite, 2, false)]);
        cache[584..588].copy_from_slice(&[1, 2, 3, 4]);
        assert_eq!(machine.cache(), cache);
        assert_eq!(valid(&machine), [(1, 1, 2), (2, 1, 3)]);
        assert_eq!(machine.call(load(3, 72)), Ok(Reply { value: 0x0102_0304, orders: vec![order(3, Read, 2, false)] }));
        // A miss, too.
        machine.call(load(0, 72)).unwrap();
        machine.call(Call::Flush { unit: 1, block: 2 }).unwrap();
        assert_eq!(orders(&mut machine, store(1, 72, 6)), [order(1, MemoryWrite, 2, false)]);
        assert_eq!(valid(&machine), [(2, 1, 3)]);
    }

    #[test]
    fn loads_and_flushes_of_a_write_through_unit() {
        let mut machine = mixed(1);
        machine.call(store(2, 72, 9)).unwrap();
        let given = vec![order(0, Read, 2, true), order(2, Copyback, 2, false), order(0, Read, 2, false)];
        assert_eq!(machine.call(load(0, 72)), Ok(Reply { value: 9, orders: given }));
        assert_eq!(valid(&machine), [(0, 1, 2), (2, 1, 2)]);
        assert_eq!(orders(&mut machine, load(0, 72)), []);
        assert_eq!(orders(&mut machine, load(0, 584)), [order(0, Read, 18, false)]);
        assert_eq!(valid(&machine), [(0, 1, 18), (2, 1, 2)]);
        assert_eq!(orders(&mut machine, Call::Flush { unit: 0, block: 2 }), []);
        assert_eq!(valid(&machine), [(0, 1, 18), (2, 1, 2)]);
        assert_eq!(orders(&mut machine, Call::Flush { unit: 0, block: 18 }), []);
        assert_eq!(valid(&machine), [(2, 1, 2)]);
    }

    #[test]
    fn a_copyback_store_beside_a_write_through_holder() {
        let mut machine = mixed(1);
        machine.call(load(0, 72)).unwrap();
        assert_eq!(orders(&mut machine, store(2, 72, 9)), [order(2, ModifiedRead, 2, false)]);
        assert_eq!(valid(&machine), [(2, 2, 2)]);
        assert_eq!(machine.peek(2), Ok(Newest::Cache { offset: 1088 }));
        machine.call(load(0, 72)).unwrap();
        assert_eq!(machine.peek(2), Ok(Newest::Memory { offset: 64 }));
        assert_eq!(orders(&mut machine, store(2, 72, 10)), [order(2, Invalidate, 2, false)]);
        assert_eq!(valid(&machine), [(2, 2, 2)]);
    }

    /// Every pair of a unit that asks and one that has the block EM.
    fn pairs() -> impl Iterator<Item = (usize, usize)> {
        (0..UNITS * UNITS).map(|n| (n / UNITS, n % UNITS)).filter(|(asker, holder)| asker != holder)
    }

    /// The order for block 2, retried, and the holder's copyback.
    fn retried(asker: usize, command: Command, holder: usize) -> Vec<Order> {
        vec![order(asker, command, 2, true), order(holder, Copyback, 2, false)]
    }

    /// Block 2 as memory has it at first, but for these words at 72 and 76.
    fn block_2(words: [u32; 2]) -> Line {
        let mut line = [102; BLOCK_BYTES];
        put(&mut line, 8, words[0]);
        put(&mut line, 12, words[1]);
        line
    }

    #[test]
    fn a_stolen_read() {
        for (asker, holder) in pairs() {
            let mut machine = stealing(0);
            machine.call(store(holder as u32, 72, 9)).unwrap();
            machine.call(store(holder as u32, 76, 5)).unwrap();
            assert_eq!(machine.call(load(asker as u32, 72)), Ok(Reply { value: 9, orders: retried(asker, Read, holder) }));
            assert_eq!(valid(&machine), [(asker.min(holder), 1, 2), (asker.max(holder), 1, 2)]);
            let copies = [machine.units[asker].copies[2], machine.units[holder].copies[2], machine.memory[2]];
            assert_eq!(copies, [block_2([9, 5]); 3]);
            assert_eq!(orders(&mut machine, load(asker as u32, 76)), []);
        }
    }

    #[test]
    fn a_stolen_modified_read() {
        for (asker, holder) in pairs() {
            let mut machine = stealing(0);
            machine.call(store(holder as u32, 72, 9)).unwrap();
            assert_eq!(orders(&mut machine, store(asker as u32, 76, 5)), retried(asker, ModifiedRead, holder));
            assert_eq!(valid(&machine), [(asker, 2, 2)]);
            assert_eq!(machine.units[asker].copies[2], block_2([9, 5]));
            assert_eq!([machine.units[holder].copies[2], machine.memory[2]], [block_2([9, 0x6666_6666]); 2]);
            assert_eq!(machine.peek(2), Ok(Newest::Cache { offset: 512 * asker + 64 }));
            assert_eq!(orders(&mut machine, store(asker as u32, 72, 10)), []);
        }
    }

    /// The holder has block 2 EM with 9 at 72, and the asker block 18, in the same slot, with 1 at 584.
    fn both_modified(asker: usize, holder: usize) -> Machine {
        let mut machine = stealing(0);
        machine.call(store(holder as u32, 72, 9)).unwrap();
        machine.call(store(asker as u32, 584, 1)).unwrap();
        machine
    }

    #[test]
    fn a_stolen_read_after_an_eviction() {
        for (asker, holder) in pairs() {
            let mut machine = both_modified(asker, holder);
            let given = [vec![order(asker, Copyback, 18, false)], retried(asker, Read, holder)].concat();
            assert_eq!(machine.call(load(asker as u32, 72)), Ok(Reply { value: 9, orders: given }));
            assert_eq!(valid(&machine), [(asker.min(holder), 1, 2), (asker.max(holder), 1, 2)]);
            assert_eq!((machine.memory[2], &machine.memory[18][8..12]), (block_2([9, 0x6666_6666]), &[0, 0, 0, 1][..]));
        }
    }

    #[test]
    fn a_stolen_modified_read_after_an_eviction() {
        for (asker, holder) in pairs() {
            let mut machine = both_modified(asker, holder);
            let given = [vec![order(asker, Copyback, 18, false)], retried(asker, ModifiedRead, holder)].concat();
            assert_eq!(orders(&mut machine, store(asker as u32, 76, 5)), given);
            assert_eq!(valid(&machine), [(asker, 2, 2)]);
            assert_eq!(machine.units[asker].copies[2], block_2([9, 5]));
            assert_eq!((machine.memory[2], &machine.memory[18][8..12]), (block_2([9, 0x6666_6666]), &[0, 0, 0, 1][..]));
        }
    }

    #[test]
    fn a_stolen_read_of_a_write_through_unit() {
        let mut machine = stealing(2);
        machine.call(store(3, 72, 9)).unwrap();
        machine.call(load(1, 584)).unwrap();
        assert_eq!(machine.call(load(1, 72)), Ok(Reply { value: 9, orders: retried(1, Read, 3) }));
        assert_eq!(valid(&machine), [(1, 1, 2), (3, 1, 2)]);
        assert_eq!(orders(&mut machine, load(1, 72)), []);
    }

    #[test]
    fn a_memory_write_is_given_again_with_steal_on() {
        let mut machine = stealing(2);
        machine.call(store(3, 72, 9)).unwrap();
        let again = vec![order(1, MemoryWrite, 2, false)];
        assert_eq!(orders(&mut machine, store(1, 76, 5)), [retried(1, MemoryWrite, 3), again.clone()].concat());
        assert_eq!((valid(&machine), machine.memory[2]), (vec![], block_2([9, 5])));
        assert_eq!(orders(&mut machine, store(1, 72, 8)), again);
    }

    #[test]
    fn with_steal_off_a_retried_order_is_given_again() {
        let mut machine = mixed(2);
        machine.call(store(0, 72, 9)).unwrap();
        assert_eq!(orders(&mut machine, load(3, 72)), [retried(3, Read, 0), vec![order(3, Read, 2, false)]].concat());
        machine.call(store(0, 72, 10)).unwrap();
        assert_eq!(orders(&mut machine, store(2, 72, 11)), [retried(2, ModifiedRead, 0), vec![order(2, ModifiedRead, 2, false)]].concat());
        assert_eq!(orders(&mut machine, store(1, 72, 12)), [retried(1, MemoryWrite, 2), vec![order(1, MemoryWrite, 2, false)]].concat());
    }

    /// Where no order is retried, a list of calls gives the same with steal on and off.
    #[test]
    fn an_order_that_is_not_retried_is_given_once() {
        let list = [
            (load(0, 72), vec![order(0, Read, 2, false)]),
            (load(3, 72), vec![order(3, Read, 2, false)]),
            (load(3, 76), vec![]),
            (store(3, 72, 7), vec![order(3, Invalidate, 2, false)]),
            (store(3, 76, 8), vec![]),
            (store(2, 96, 9), vec![order(2, ModifiedRead, 3, false)]),
            (load(2, 608), vec![order(2, Copyback, 3, false), order(2, Read, 19, false)]),
            (store(0, 608, 6), vec![order(0, ModifiedRead, 19, false)]),
            (store(0, 96, 5), vec![order(0, Copyback, 19, false), order(0, ModifiedRead, 3, false)]),
            (store(1, 608, 4), vec![order(1, MemoryWrite, 19, false)]),
            (Call::Flush { unit: 0, block: 2 }, vec![]),
            (Call::Flush { unit: 3, block: 2 }, vec![order(3, Copyback, 2, false)]),
        ];
        let mut machines = [mixed(2), stealing(2)];
        for (call, given) in list {
            assert_eq!(machines.each_mut().map(|machine| orders(machine, call)), [given.clone(), given], "{call:?}");
        }
        let [off, on] = machines;
        assert_eq!(valid(&off), [(0, 2, 3)]);
        assert_eq!(Machine { steal: false, ..on }, off);
    }

    #[test]
    fn steal_by_its_number() {
        assert_eq!([0, 1].map(steal_of), [Some(false), Some(true)]);
        for number in [2, 3, 255, 256, 257, 1 << 31, u32::MAX] {
            assert_eq!(steal_of(number), None, "{number}");
        }
        assert_eq!(mixed(5).directory()[128..130], [5, 0]);
        assert_eq!(stealing(5).directory()[128..130], [5, 1]);
    }

    #[test]
    fn steal_in_a_directory() {
        let bytes = [0; STORE_BYTES];
        let mut directory = [0; DIRECTORY_BYTES];
        for (set, number) in [0, 15, 16].into_iter().flat_map(|set| (0..=255).map(move |number| (set, number))) {
            directory[128..130].copy_from_slice(&[set, number]);
            let opened = Machine::open(&directory, &bytes, &bytes);
            assert_eq!(opened.err(), (set > 15 || number > 1).then_some(2), "set {set}, steal {number}");
            assert_eq!(Machine::open(&directory, &bytes[1..], &bytes), Err(1));
        }
        directory[128..130].copy_from_slice(&[2, 1]);
        let mut machine = Machine::open(&directory, &bytes, &bytes).unwrap();
        assert_eq!(machine.call(load(4, 2)), Err(3));
        assert_eq!(machine.call(load(0, 2)), Err(4));
        for call in [store(0, 72, 9), load(2, 72), store(3, 72, 10), store(1, 72, 11), Call::Flush { unit: 0, block: 2 }] {
            machine.call(call).unwrap();
            assert_eq!(machine.directory()[128..130], [2, 1], "{call:?}");
        }
    }

    /// What a lamp shows of a block after each call: the set and the count, which the machine and its directory's bytes both give.
    fn lamp(machine: &mut Machine, block: u32, calls: &[Call]) -> Vec<(u32, u32)> {
        let shown = |call: &Call| {
            machine.call(*call).unwrap();
            let holders = machine.holders(block).unwrap();
            assert_eq!(holders_in(&machine.directory(), block), Ok(holders), "{call:?}");
            (holders.set, holders.count)
        };
        calls.iter().map(shown).collect()
    }

    /// Unit 3 stores as a copyback unit, as a write-through one, and where unit 1's load is then stolen. Block 18 has block 2's slot.
    #[test]
    fn a_lamp_follows_a_run() {
        let flush = Call::Flush { unit: 1, block: 2 };
        let calls = [load(0, 72), load(3, 72), store(3, 72, 9), load(1, 72), load(3, 584), flush];
        for mut machine in [mixed(0), mixed(8), stealing(0), stealing(8)] {
            assert_eq!((machine.holders(2), &machine.directory()[130..]), (Ok(Holders { set: 0, count: 0 }), &[0; BLOCKS][..]));
            let mut other = machine.clone();
            assert_eq!(lamp(&mut machine, 2, &calls), [(1, 1), (9, 2), (8, 1), (10, 2), (2, 1), (0, 0)]);
            assert_eq!(lamp(&mut other, 18, &calls), [(0, 0), (0, 0), (0, 0), (0, 0), (8, 1), (8, 1)]);
        }
    }

    #[test]
    fn a_lamp_of_a_write_through_unit() {
        let calls = [load(1, 72), load(0, 72), store(1, 72, 9), store(0, 72, 8), store(1, 72, 7), load(2, 72), store(1, 76, 6)];
        let shown = [(2, 1), (3, 2), (2, 1), (1, 1), (0, 0), (4, 1), (0, 0)];
        assert_eq!(lamp(&mut mixed(2), 2, &calls), shown);
        assert_eq!(lamp(&mut stealing(2), 2, &calls), shown);
    }

    #[test]
    fn a_lamp_of_stolen_blocks() {
        let calls = [store(0, 72, 9), load(2, 72), store(2, 72, 8), store(1, 72, 7), store(1, 584, 6), load(3, 584)];
        assert_eq!(lamp(&mut stealing(0), 2, &calls), [(1, 1), (5, 2), (4, 1), (2, 1), (0, 0), (0, 0)]);
        assert_eq!(lamp(&mut stealing(0), 18, &calls), [(0, 0), (0, 0), (0, 0), (0, 0), (2, 1), (10, 2)]);
    }

    #[test]
    fn a_refused_call_leaves_the_sets() {
        let mut machine = cold();
        machine.call(load(3, 72)).unwrap();
        for (call, number) in [(load(4, 72), 3), (store(0, 74, 1), 4), (Call::Flush { unit: 3, block: 64 }, 4)] {
            assert_eq!(machine.call(call), Err(number));
            assert_eq!(machine.directory(), directory_of(0, &[(48 + 2, 1, 2)]));
        }
    }

    /// All sixteen sets of SU holders of each block, and each unit EM.
    #[test]
    fn sets_and_counts() {
        let counts = [0, 1, 1, 2, 1, 2, 2, 3, 1, 2, 2, 3, 2, 3, 3, 4];
        for (block, set) in (0..BLOCKS as u8).flat_map(|block| (0..16u32).map(move |set| (block, set))) {
            let slot = |unit: usize| 16 * unit + block as usize % 16;
            let units = (0..UNITS).filter(|unit| [1, 2, 4, 8][*unit] & set != 0);
            let slots: Vec<(usize, u8, u8)> = units.map(|unit| (slot(unit), 1, block)).collect();
            let directory = directory_of(0, &slots);
            assert_eq!(holders_in(&directory, block.into()), Ok(Holders { set, count: counts[set as usize] }), "{set} of block {block}");
            assert_eq!(holders_in(&directory, (u32::from(block) + 16) % 64), Ok(Holders { set: 0, count: 0 }));
            if let [(slot, _, _)] = slots[..] {
                assert_eq!(holders_in(&directory_of(0, &[(slot, 2, block)]), block.into()), Ok(Holders { set, count: 1 }));
            }
        }
    }

    /// Of all bytes in the place of a block's set the true one alone is accepted.
    #[test]
    fn a_set_that_differs_from_the_slots() {
        // Block 2 in units 0 and 3, block 18 in unit 1, block 63 EM in unit 2.
        let good = directory_of(0, &[(2, 1, 2), (48 + 2, 1, 2), (16 + 2, 1, 18), (32 + 15, 2, 63)]);
        assert_eq!([2, 18, 63].map(|block| good[130 + block]), [9, 2, 4]);
        for (block, set) in (0..BLOCKS).flat_map(|block| (0..=255).map(move |set| (block, set))) {
            let mut directory = good;
            directory[130 + block] = set;
            assert_eq!(broken(&directory), directory != good, "{set} of block {block}");
        }
        let mut exchanged = good;
        exchanged.swap(130 + 2, 130 + 18);
        assert!(broken(&exchanged), "the sets of two blocks exchanged");
    }

    #[test]
    fn refusals_of_holders() {
        let good = directory_of(2, &[(0, 1, 0), (63, 2, 63)]);
        assert_eq!(holders_in(&good, 0), Ok(Holders { set: 1, count: 1 }));
        assert_eq!(holders_in(&good, 63), Ok(Holders { set: 8, count: 1 }));
        let machine = Machine::open(&good, &[0; STORE_BYTES], &[0; STORE_BYTES]).unwrap();
        for block in [64, 127, 255, 256, 319, 1 << 31, u32::MAX - 63, u32::MAX] {
            assert_eq!((holders_in(&good, block), machine.holders(block)), (Err(4), Err(4)), "{block}");
        }
        for (place, byte) in [(1, 16), (64, 3), (128, 8), (128, 16), (129, 2), (130, 0), (193, 24)] {
            let mut directory = good;
            directory[place] = byte;
            assert_eq!([0, 64].map(|block| holders_in(&directory, block)), [Err(2); 2], "{byte} at {place}");
        }
        for length in [0, 130, 193] {
            assert_eq!(holders_in(&good[..length], 64), Err(2), "{length} bytes");
        }
        assert_eq!(holders_in(&[0; DIRECTORY_BYTES + 1], 0), Err(2));
    }
}
