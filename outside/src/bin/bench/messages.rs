//! The receiver and the sender in plain Rust, on the lent numbers and bytes where they lie.

fn party(sender: u64, aid: u64) -> bool {
    sender <= 7 && aid <= 255
}

/// The number of refusal of an operation: tests 1, 10, 8, 12, 11, 9.
fn refusal(receiver: &[u64; 4], store: &[u8], sequence: u32, sender: u32, aid: u32, bytes: &[u8]) -> u32 {
    let &[kind, from, own, count] = receiver;
    let sound = match kind {
        0 => from == 0 && own == 0 && count == 0,
        1 => party(from, own) && (1..=4096).contains(&count),
        _ => false,
    };
    if store.len() != 4096 {
        1
    } else if !sound {
        10
    } else if bytes.is_empty() || bytes.len() > 256 || !party(sender.into(), aid.into()) || sequence > 3 {
        8
    } else if (sequence < 2) != (kind == 0) {
        12
    } else if kind == 1 && (from, own) != (sender.into(), aid.into()) {
        11
    } else if count as usize + bytes.len() > 4096 {
        9
    } else {
        0
    }
}

#[inline(never)]
pub fn trainer_receive(receiver: &mut [u64], store: &mut [u8], sequence: u32, sender: u32, aid: u32, bytes: &[u8], completion: &mut [u64]) -> u32 {
    let (Some(receiver), Some(completion)) = (receiver.first_chunk_mut::<4>(), completion.first_chunk_mut::<4>()) else {
        return 9;
    };
    let number = refusal(receiver, store, sequence, sender, aid, bytes);
    if number == 0 {
        let start = receiver[3] as usize;
        let end = start + bytes.len();
        store[start..end].copy_from_slice(bytes);
        let numbers = [1, sender.into(), aid.into(), end as u64];
        (*receiver, *completion) = if sequence == 0 || sequence == 3 { ([0; 4], numbers) } else { (numbers, [0; 4]) };
    }
    number
}

#[inline(never)]
pub fn trainer_operation(message: &[u8], sender: u32, aid: u32, index: usize, sequence: &mut u32, offset: &mut usize, length: &mut usize) -> u32 {
    if message.is_empty() || !party(sender.into(), aid.into()) {
        return 8;
    }
    if message.len() > 4096 {
        return 9;
    }
    let last = (message.len() - 1) / 256;
    (*sequence, *offset, *length) = if index > last {
        (0, 0, 0)
    } else {
        let kind = match (index == 0, index == last) {
            (true, true) => 0,
            (true, false) => 1,
            (false, false) => 2,
            (false, true) => 3,
        };
        (kind, 256 * index, if index == last { message.len() - 256 * last } else { 256 })
    };
    0
}
