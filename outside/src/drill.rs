//! What the drill program prints for a tape.
use crate::machine::{Call, Machine, ALL_COPYBACK, STORE_BYTES};
use crate::tape::{self, Found, Record};
use std::fmt::Write;

pub const LONGEST_TAPE: usize = 65536;

/// The call that a record asks, and its word; none for kinds above 2.
fn call_of(record: &Record) -> Option<(Call, &'static str)> {
    let field = |n: usize| u32::try_from(record.fields[n]).expect("the fields of kinds 0 to 2 have 32 bits");
    Some(match record.kind {
        0 => (Call::Load { unit: field(0), address: field(1) }, "load"),
        1 => (Call::Store { unit: field(0), address: field(1), value: field(2) }, "store"),
        2 => (Call::Flush { unit: field(0), block: field(1) }, "flush"),
        _ => return None,
    })
}

pub fn drill(tape: &[u8]) -> String {
    if tape.len() > LONGEST_TAPE {
        return format!("refused 9 at {LONGEST_TAPE}\n");
    }
    let mut machine = Machine::cold(&[0; STORE_BYTES], ALL_COPYBACK, false);
    let (mut text, mut place, mut calls, mut orders) = (String::new(), 0, 0, 0);
    loop {
        let record = match tape::read(tape, place) {
            Ok(Found::Finished) => break,
            Ok(Found::Record(record, next)) => {
                place = next;
                record
            }
            Err(refused) => {
                let _ = writeln!(text, "refused {} at {}", refused.number, refused.place);
                return text;
            }
        };
        let Some((call, word)) = call_of(&record) else { continue };
        let reply = machine.call(call).expect("the tape's ranges are the machine's");
        let value = match call {
            Call::Load { .. } => format!(" {}", reply.value),
            Call::Store { value, .. } => format!(" {value}"),
            Call::Flush { .. } => String::new(),
        };
        let _ = writeln!(text, "{word} {} {}{value} orders {}", record.fields[0], record.fields[1], reply.orders.len());
        calls += 1;
        orders += reply.orders.len();
    }
    let _ = writeln!(text, "total {calls} calls {orders} orders");
    text
}

#[cfg(test)]
mod tests {
    use super::*;

    #[test]
    fn the_papers_drill() {
        let tape = [
            0x01, 0x00, 0x48, 0x09, 0x00, 0x01, 0x48, 0x01, 0x01, 0x48, 0x0A, 0x00, 0x00, 0xC8, 0x04, 0x00, 0x01, 0xC8, 0x04, 0x02, 0x01, 0x02,
        ];
        let text = "store 0 72 9 orders 1\n\
                    load 1 72 9 orders 3\n\
                    store 1 72 10 orders 1\n\
                    load 0 584 0 orders 1\n\
                    load 1 584 0 orders 2\n\
                    flush 1 2 orders 0\n\
                    total 6 calls 8 orders\n";
        assert_eq!(drill(&tape), text);
    }

    #[test]
    fn the_ends_of_a_drill() {
        assert_eq!(drill(&[]), "total 0 calls 0 orders\n");
        assert_eq!(drill(&[0x80, 0x80]), "refused 5 at 0\n");
        assert_eq!(drill(&[0x80; 5]), "refused 5 at 0\n");
        assert_eq!(drill(&[0x80; 9]), "refused 5 at 0\n");
        assert_eq!(drill(&[0x80; 10]), "refused 6 at 0\n");
        assert_eq!(drill(&[0x02, 0x00, 0x3F, 0x02, 0x00, 0x40]), "flush 0 63 orders 0\nrefused 8 at 5\n");
        assert_eq!(drill(&[0x06, 0x00, 0x05]), "total 0 calls 0 orders\n");
        assert_eq!(drill(&vec![0; LONGEST_TAPE + 1]), "refused 9 at 65536\n");
        assert_eq!(drill(&vec![0; LONGEST_TAPE]).lines().last(), Some("refused 5 at 65536"));
    }

    /// Every board is a copyback one, whatever orders stand on the tape.
    #[test]
    fn memory_writes_are_passed_over() {
        assert_eq!(drill(&[0x03, 0x01, 0x04, 0x05, 0x01, 0x03, 0x01, 0x04, 0x05, 0x00]), "total 0 calls 0 orders\n");
        assert_eq!(drill(&[0x03, 0x01, 0x04, 0x05, 0x02]), "refused 8 at 4\n");
        assert_eq!(drill(&[0x03, 0x01, 0x05, 0x05, 0x00]), "refused 8 at 2\n");
        let store_twice = |unit: u8| [0x03, unit, 0x04, 0x02, 0x00, 0x01, unit, 0x48, 0x09, 0x01, unit, 0x48, 0x0A];
        for unit in 0..4 {
            let text = format!("store {unit} 72 9 orders 1\nstore {unit} 72 10 orders 0\ntotal 2 calls 1 orders\n");
            assert_eq!(drill(&store_twice(unit)), text);
        }
    }

    /// Steal is off: each order that is retried is given again.
    #[test]
    fn retried_orders_are_given_again() {
        let text = "store 0 72 9 orders 1\nstore 1 72 10 orders 3\nload 2 72 10 orders 3\ntotal 3 calls 7 orders\n";
        assert_eq!(drill(&[0x01, 0x00, 0x48, 0x09, 0x01, 0x01, 0x48, 0x0A, 0x00, 0x02, 0x48]), text);
    }

    #[test]
    fn stamps_are_passed_over() {
        let largest = [0x08, 0xFF, 0xFF, 0xFF, 0xFF, 0xFF, 0xFF, 0xFF, 0xFF, 0xFF, 0x01];
        assert_eq!(drill(&[0x08, 0x00]), "total 0 calls 0 orders\n");
        assert_eq!(drill(&largest), "total 0 calls 0 orders\n");
        let store: &[u8] = &[0x01, 0x00, 0x48, 0x09];
        let load: &[u8] = &[0x00, 0x01, 0x48];
        let text = "store 0 72 9 orders 1\nload 1 72 9 orders 3\ntotal 2 calls 4 orders\n";
        assert_eq!(drill(&[&largest, store, &[0x08, 0x05], &largest, load, &[0x08, 0x00]].concat()), text);
        assert_eq!(drill(&[store, &[0x08]].concat()), "store 0 72 9 orders 1\nrefused 5 at 5\n");
        assert_eq!(drill(&[&[0x08, 0x05], store, &[0x07]].concat()), "store 0 72 9 orders 1\nrefused 7 at 6\n");
    }
}
