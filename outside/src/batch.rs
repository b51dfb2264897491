//! A whole drill in one call (document 02, T-03). The machine is opened once; the accesses of the list are made on it up to the first that is refused,
//! and what they left is handed back if there were any.
use crate::machine::{Call, Machine};
use crate::tape::{FIELD_RANGE, NO_ROOM, UNKNOWN_KIND};

/// The numbers of an access: kind (0 load, 1 store, 2 flush), unit, address (of a flush: block), and value, which only a store looks at.
pub const ACCESS_NUMBERS: usize = 4;
/// The most accesses of a list.
pub const LONGEST_LIST: usize = 65_536;

/// How a list ended: its refusal, 0 for none; how many accesses were made; how many orders these gave together.
#[derive(Clone, Copy, Debug, Default, PartialEq, Eq)]
pub struct Outcome {
    pub refusal: u32,
    pub index: u32,
    pub orders: u32,
}

/// The call that an access asks for, if its kind is known.
pub fn call_of(access: &[u32]) -> Option<Call> {
    match *access {
        [0, unit, address, _] => Some(Call::Load { unit, address }),
        [1, unit, address, value] => Some(Call::Store { unit, address, value }),
        [2, unit, block, _] => Some(Call::Flush { unit, block }),
        _ => None,
    }
}

/// Tests 9 and 8 of the list; then of each access 7, and the machine's own 1, 2, 3, 4.
pub fn batch(directory: &mut [u8], memory: &mut [u8], cache: &mut [u8], accesses: &[u32], values: &mut [u32]) -> Outcome {
    let list = accesses.chunks_exact(ACCESS_NUMBERS);
    if list.len() > LONGEST_LIST.min(values.len()) {
        return Outcome { refusal: NO_ROOM, ..Outcome::default() };
    }
    if !list.remainder().is_empty() {
        return Outcome { refusal: FIELD_RANGE, ..Outcome::default() };
    }
    let mut opened = Machine::open(directory, memory, cache);
    let outcome = make(&mut opened, list.map(call_of), values);
    if let (1.., Ok(machine)) = (outcome.index, opened) {
        directory.copy_from_slice(&machine.directory());
        memory.copy_from_slice(&machine.memory());
        cache.copy_from_slice(&machine.cache());
    }
    outcome
}

/// The accesses in order on a machine, or on none, which has a refusal in its place.
fn make(opened: &mut Result<Machine, u32>, list: impl Iterator<Item = Option<Call>>, values: &mut [u32]) -> Outcome {
    let mut outcome = Outcome::default();
    for (call, value) in list.zip(values) {
        let machine = opened.as_mut().map_err(|refusal| *refusal);
        let reply = call.ok_or(UNKNOWN_KIND).and_then(|call| machine?.call(call));
        match reply {
            Ok(reply) => {
                *value = reply.value;
                outcome.index += 1;
                outcome.orders += reply.orders.len() as u32;
            }
            Err(refusal) => return Outcome { refusal, ..outcome },
        }
    }
    outcome
}
