//! Demand 3 on the second implementation alone, for every set of write-through boards, with steal on and off: the machine accepts the calls that the plain
//! memory accepts, each load answers its number, no block is EM in one unit and held by another, the sets of holders are those that the slots have, and the
//! orders are at most the loads and three times the stores, with steal on twice the stores.
use outside::machine::{kinds_of, Call, Command, Holders, Machine, Newest, Order, Reply, BLOCKS, HOLDERS_PLACE, STORE_BYTES};
use outside::random::Random;
use std::collections::BTreeSet;

/// Document 01's plain memory, and how many loads and stores it accepted.
struct Plain {
    bytes: Vec<u8>,
    loads: usize,
    stores: usize,
}

impl Plain {
    /// An accepted load's number, 0 for another accepted call.
    fn call(&mut self, call: Call) -> Option<u32> {
        let word = |unit: u32, address: u32| (unit <= 3 && address % 4 == 0 && address <= 2044).then(|| address as usize..address as usize + 4);
        match call {
            Call::Load { unit, address } => {
                let at = word(unit, address)?;
                self.loads += 1;
                Some(u32::from_be_bytes(self.bytes[at].try_into().expect("four bytes")))
            }
            Call::Store { unit, address, value } => {
                let at = word(unit, address)?;
                self.stores += 1;
                self.bytes[at].copy_from_slice(&value.to_be_bytes());
                Some(0)
            }
            Call::Flush { unit, block } => (unit <= 3 && block <= 63).then_some(0),
        }
    }

    fn bill(&self, steal: bool) -> usize {
        let each = if steal { 2 } else { 3 };
        self.loads + each * self.stores
    }
}

/// Calls on a few blocks of two slots, one in thirty with a unit, an address or a block out of range.
fn random_call(random: &mut Random) -> Call {
    let (unit, block) = (random.below(4), 16 * random.below(4) + random.below(2));
    let (unit, block) = if random.one_in(30) { (random.below(6), block + 16 * random.below(3)) } else { (unit, block) };
    let address = 32 * block + if random.one_in(60) { random.below(32) } else { 4 * random.below(8) };
    match random.below(8) {
        0 => Call::Flush { unit, block },
        1..=3 => Call::Load { unit, address },
        _ => Call::Store { unit, address, value: random.next() },
    }
}

/// The valid slots of a directory: unit, whether it is EM, block.
fn valid(directory: &[u8]) -> Vec<(usize, bool, u8)> {
    let slots = directory[..128].chunks_exact(2).enumerate();
    slots.filter(|(_, slot)| slot[0] != 0).map(|(n, slot)| (n / 16, slot[0] == 2, slot[1])).collect()
}

/// No block EM in one unit is held by another, and the EM slots are those of copyback units.
fn exclusive(directory: &[u8], set: u32) -> bool {
    let slots = valid(directory);
    let alone = |unit: usize, block: u8| slots.iter().all(|&(other, _, held)| other == unit || held != block);
    slots.iter().all(|&(unit, modified, block)| !modified || (set >> unit & 1 == 0 && alone(unit, block)))
}

/// The set of a block's holders and their count, by the valid slots.
fn holders(slots: &[(usize, bool, u8)], block: u8) -> Holders {
    let units: BTreeSet<usize> = slots.iter().filter(|(_, _, held)| *held == block).map(|(unit, _, _)| *unit).collect();
    Holders { set: units.iter().map(|unit| [1, 2, 4, 8][*unit]).sum(), count: units.len() as u32 }
}

/// The sets that the machine keeps and tells, and those in the directory's bytes, are those of the slots. Gives the sets of all blocks.
fn true_sets(machine: &Machine, directory: &[u8]) -> Option<Vec<u32>> {
    let slots = valid(directory);
    let sets = (0..BLOCKS as u8).map(|block| {
        let found = holders(&slots, block);
        let kept = (u32::from(directory[HOLDERS_PLACE + block as usize]), machine.holders(block.into()));
        (kept == (found.set, Ok(found))).then_some(found.set)
    });
    sets.collect()
}

/// The newest bytes of every block.
fn newest(machine: &Machine) -> Vec<u8> {
    let (memory, cache) = (machine.memory(), machine.cache());
    let bytes = |block| match machine.peek(block).expect("a block below 64") {
        Newest::Memory { offset } => &memory[offset..offset + 32],
        Newest::Cache { offset } => &cache[offset..offset + 32],
    };
    (0..BLOCKS as u32).flat_map(bytes).copied().collect()
}

/// The command of a call's retried order, if it has one. Behind it stands the holder's copyback, and then the order again, but for a read and a modified read
/// with steal on.
fn retried(orders: &[Order], steal: bool) -> Option<Command> {
    let at = orders.iter().position(|order| order.retried)?;
    let again = Order { retried: false, ..orders[at] };
    let expected = if steal && again.command != Command::MemoryWrite { vec![] } else { vec![again] };
    assert_eq!((orders[at + 1].command, orders[at + 1].block), (Command::Copyback, again.block));
    assert_eq!(orders[at + 2..], expected);
    Some(again.command)
}

/// One list of calls after a cold start; gives the numbers of the commands that were retried, and the sets of holders that were met.
fn list(seed: u64, set: u32, steal: bool) -> (BTreeSet<u32>, BTreeSet<u32>) {
    let mut random = Random::new(seed);
    let memory: Vec<u8> = (0..STORE_BYTES).map(|_| random.byte()).collect();
    let mut machine = Machine::cold(&memory, kinds_of(set).expect("a set below 16"), steal);
    let mut plain = Plain { bytes: memory, loads: 0, stores: 0 };
    let (mut given, mut commands, mut sets) = (0, BTreeSet::new(), BTreeSet::new());
    for step in 0..1_000 {
        let call = random_call(&mut random);
        let reply = machine.call(call);
        let context = format!("list {seed}, set {set}, steal {steal}, step {step}, {call:?}");
        assert_eq!(reply.as_ref().ok().map(|reply| reply.value), plain.call(call), "{context}");
        let orders = reply.map_or(vec![], |Reply { orders, .. }| orders);
        given += orders.len();
        commands.extend(retried(&orders, steal).map(|command| command as u32));
        assert!(given <= plain.bill(steal), "{context}: {given} orders");
        let directory = machine.directory();
        assert!(exclusive(&directory, set), "{context}");
        sets.extend(true_sets(&machine, &directory).expect(&context));
        assert_eq!(newest(&machine), plain.bytes, "{context}");
    }
    (commands, sets)
}

/// A read is retried where there is a copyback board, a modified read where there are two, a memory write where there are boards of both kinds. Some block
/// comes to be held by each set of units.
#[test]
fn every_setting() {
    for (set, steal) in (0..32).map(|n| (n / 2, n % 2 == 1)) {
        let (mut commands, mut sets) = (BTreeSet::new(), BTreeSet::new());
        for n in 0..4 {
            let (more_commands, more_sets) = list(7_000_000 + 16 * n + u64::from(set), set, steal);
            commands.extend(more_commands);
            sets.extend(more_sets);
        }
        let copyback = 4 - set.count_ones();
        let rows = [(Command::Read, 1..=4), (Command::ModifiedRead, 2..=4), (Command::MemoryWrite, 1..=3)];
        let expected = rows.into_iter().filter(|(_, counts)| counts.contains(&copyback)).map(|(command, _)| command as u32).collect();
        assert_eq!(commands, expected, "set {set}, steal {steal}");
        assert_eq!(sets, (0..16).collect(), "set {set}, steal {steal}");
    }
}

/// How many orders each call of a list gives after a cold start with a write-through board in unit 1, and the bill.
fn counts(steal: bool, calls: &[Call]) -> (Vec<usize>, usize) {
    let mut machine = Machine::cold(&[0; STORE_BYTES], kinds_of(2).expect("a set below 16"), steal);
    let mut plain = Plain { bytes: vec![0; STORE_BYTES], loads: 0, stores: 0 };
    let mut given = vec![];
    for &call in calls {
        plain.call(call);
        given.push(machine.call(call).expect("accepted").orders.len());
    }
    (given, plain.bill(steal))
}

/// P11 with a write-through unit's load, and with steal on its store too: as many orders as the bill allows.
#[test]
fn the_bill_is_met() {
    let store = |unit, value| Call::Store { unit, address: 72, value };
    let load = |unit| Call::Load { unit, address: 72 };
    for unit in 1..4 {
        assert_eq!(counts(false, &[store(0, 9), load(unit)]), (vec![1, 3], 4));
        assert_eq!(counts(true, &[store(0, 9), load(unit)]), (vec![1, 2], 3));
    }
    assert_eq!(counts(true, &[store(0, 9), store(1, 12)]), (vec![1, 3], 4));
}
