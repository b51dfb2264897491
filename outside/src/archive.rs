//! The proved library as C sees it (include/trainer.h), with slices in the place of pointers and lengths.

/// Numbers in the answer of a call: value, count of orders, and four orders of unit, command, block, retried.
pub const ANSWER_NUMBERS: usize = 18;
/// Numbers of a record: its kind and six fields, 0 where it has fewer.
pub const RECORD_NUMBERS: usize = 7;
/// Numbers of a receiver: 0 idle or 1 pending, sender, AID, byte count.
pub const RECEIVER_NUMBERS: usize = 4;
/// Numbers of a completion: 0 or 1, sender, AID, length.
pub const COMPLETION_NUMBERS: usize = 4;

mod foreign {
    extern "C" {
        pub fn trainer_cold_start(
            memory: *const u8, memory_size: usize,
            cache: *mut u8, cache_size: usize,
            write_through: u32, steal: u32,
            directory: *mut u8, directory_size: usize,
        ) -> u32;
        pub fn trainer_load(
            directory: *mut u8, directory_size: usize,
            memory: *mut u8, memory_size: usize,
            cache: *mut u8, cache_size: usize,
            unit: u32, address: u32,
            answer: *mut u32, answer_size: usize,
        ) -> u32;
        pub fn trainer_store(
            directory: *mut u8, directory_size: usize,
            memory: *mut u8, memory_size: usize,
            cache: *mut u8, cache_size: usize,
            unit: u32, address: u32, value: u32,
            answer: *mut u32, answer_size: usize,
        ) -> u32;
        pub fn trainer_flush(
            directory: *mut u8, directory_size: usize,
            memory: *mut u8, memory_size: usize,
            cache: *mut u8, cache_size: usize,
            unit: u32, block: u32,
            answer: *mut u32, answer_size: usize,
        ) -> u32;
        pub fn trainer_batch(
            directory: *mut u8, directory_size: usize,
            memory: *mut u8, memory_size: usize,
            cache: *mut u8, cache_size: usize,
            accesses: *const u32, accesses_size: usize,
            values: *mut u32, values_size: usize,
            index: *mut u32, orders: *mut u32,
        ) -> u32;
        pub fn trainer_peek(
            directory: *const u8, directory_size: usize,
            memory: *const u8, memory_size: usize,
            cache: *const u8, cache_size: usize,
            block: u32,
            store: *mut u32, offset: *mut u32,
        ) -> u32;
        pub fn trainer_holders(
            directory: *const u8, directory_size: usize,
            block: u32,
            set: *mut u32, count: *mut u32,
        ) -> u32;
        pub fn trainer_read_record(
            tape: *const u8, tape_size: usize,
            place: usize, next: *mut usize,
            numbers: *mut u64, numbers_size: usize,
        ) -> u32;
        pub fn trainer_record_size(
            numbers: *const u64, numbers_size: usize,
            size: *mut usize,
        ) -> u32;
        pub fn trainer_write_record(
            numbers: *const u64, numbers_size: usize,
            space: *mut u8, space_size: usize,
            written: *mut usize,
        ) -> u32;
        pub fn trainer_drill(
            tape: *const u8, tape_size: usize,
            text: *mut u8, text_size: usize,
            written: *mut usize,
        ) -> u32;
        pub fn trainer_parity(word: u64) -> u32;
        pub fn trainer_check(word: u64, set: u32, wrong: *mut u32, count: *mut u32) -> u32;
        pub fn trainer_lanes(ra: u32, bct: u32, words: *mut u32, positions: *mut u32) -> u32;
        pub fn trainer_plan(
            cycles: u32, cycle: u32, locked: u32,
            bs: *mut u32, bur: *mut u32, et: *mut u32, et_at_request: *mut u32,
        ) -> u32;
        pub fn trainer_class(code: u32, class: *mut u32, carried: *mut u32, error: *mut u32) -> u32;
        pub fn trainer_code(class: u32, carried: u32, code: *mut u32) -> u32;
        pub fn trainer_handler(state: *mut u32, state_size: usize) -> u32;
        pub fn trainer_arbitrate(
            state: *mut u32, state_size: usize,
            high: u32, low: u32, lck: u32,
            grant: *mut u32, unit: *mut u32,
        ) -> u32;
        pub fn trainer_receive(
            receiver: *mut u64, receiver_size: usize,
            store: *mut u8, store_size: usize,
            sequence: u32, sender: u32, aid: u32,
            bytes: *const u8, bytes_size: usize,
            completion: *mut u64, completion_size: usize,
        ) -> u32;
        pub fn trainer_divide(
            message: *const u8, message_size: usize,
            sender: u32, aid: u32,
            operations: *mut usize,
        ) -> u32;
        pub fn trainer_operation(
            message: *const u8, message_size: usize,
            sender: u32, aid: u32,
            index: usize,
            sequence: *mut u32, offset: *mut usize, length: *mut usize,
        ) -> u32;
        pub fn trainer_read_interrupt(
            upper: u64, lower: u64,
            target: *mut u32, agent: *mut u32, device: *mut u32,
        ) -> u32;
        pub fn trainer_write_interrupt(
            target: u32, agent: u32,
            upper: *mut u64, lower: *mut u64,
        ) -> u32;
    }
}

pub fn cold_start(memory: &[u8], cache: &mut [u8], write_through: u32, steal: u32, directory: &mut [u8]) -> u32 {
    unsafe {
        foreign::trainer_cold_start(
            memory.as_ptr(), memory.len(),
            cache.as_mut_ptr(), cache.len(),
            write_through, steal,
            directory.as_mut_ptr(), directory.len(),
        )
    }
}

pub fn load(directory: &mut [u8], memory: &mut [u8], cache: &mut [u8], unit: u32, address: u32, answer: &mut [u32]) -> u32 {
    unsafe {
        foreign::trainer_load(
            directory.as_mut_ptr(), directory.len(),
            memory.as_mut_ptr(), memory.len(),
            cache.as_mut_ptr(), cache.len(),
            unit, address,
            answer.as_mut_ptr(), answer.len(),
        )
    }
}

pub fn store(directory: &mut [u8], memory: &mut [u8], cache: &mut [u8], unit: u32, address: u32, value: u32, answer: &mut [u32]) -> u32 {
    unsafe {
        foreign::trainer_store(
            directory.as_mut_ptr(), directory.len(),
            memory.as_mut_ptr(), memory.len(),
            cache.as_mut_ptr(), cache.len(),
            unit, address, value,
            answer.as_mut_ptr(), answer.len(),
        )
    }
}

pub fn flush(directory: &mut [u8], memory: &mut [u8], cache: &mut [u8], unit: u32, block: u32, answer: &mut [u32]) -> u32 {
    unsafe {
        foreign::trainer_flush(
            directory.as_mut_ptr(), directory.len(),
            memory.as_mut_ptr(), memory.len(),
            cache.as_mut_ptr(), cache.len(),
            unit, block,
            answer.as_mut_ptr(), answer.len(),
        )
    }
}

/// Of `accesses` four numbers are one access.
pub fn batch(directory: &mut [u8], memory: &mut [u8], cache: &mut [u8], accesses: &[u32], values: &mut [u32], index: &mut u32, orders: &mut u32) -> u32 {
    unsafe {
        foreign::trainer_batch(
            directory.as_mut_ptr(), directory.len(),
            memory.as_mut_ptr(), memory.len(),
            cache.as_mut_ptr(), cache.len(),
            accesses.as_ptr(), accesses.len(),
            values.as_mut_ptr(), values.len(),
            index, orders,
        )
    }
}

pub fn peek(directory: &[u8], memory: &[u8], cache: &[u8], block: u32, store: &mut u32, offset: &mut u32) -> u32 {
    unsafe {
        foreign::trainer_peek(
            directory.as_ptr(), directory.len(),
            memory.as_ptr(), memory.len(),
            cache.as_ptr(), cache.len(),
            block,
            store, offset,
        )
    }
}

pub fn holders(directory: &[u8], block: u32, set: &mut u32, count: &mut u32) -> u32 {
    unsafe { foreign::trainer_holders(directory.as_ptr(), directory.len(), block, set, count) }
}

pub fn read_record(tape: &[u8], place: usize, next: &mut usize, numbers: &mut [u64]) -> u32 {
    unsafe { foreign::trainer_read_record(tape.as_ptr(), tape.len(), place, next, numbers.as_mut_ptr(), numbers.len()) }
}

pub fn record_size(numbers: &[u64], size: &mut usize) -> u32 {
    unsafe { foreign::trainer_record_size(numbers.as_ptr(), numbers.len(), size) }
}

pub fn write_record(numbers: &[u64], space: &mut [u8], written: &mut usize) -> u32 {
    unsafe { foreign::trainer_write_record(numbers.as_ptr(), numbers.len(), space.as_mut_ptr(), space.len(), written) }
}

pub fn drill(tape: &[u8], text: &mut [u8], written: &mut usize) -> u32 {
    unsafe { foreign::trainer_drill(tape.as_ptr(), tape.len(), text.as_mut_ptr(), text.len(), written) }
}

pub fn parity(word: u64) -> u32 {
    unsafe { foreign::trainer_parity(word) }
}

pub fn check(word: u64, set: u32, wrong: &mut u32, count: &mut u32) -> u32 {
    unsafe { foreign::trainer_check(word, set, wrong, count) }
}

pub fn lanes(ra: u32, bct: u32, words: &mut u32, positions: &mut u32) -> u32 {
    unsafe { foreign::trainer_lanes(ra, bct, words, positions) }
}

/// The four levels: BS, BUR, ET, and ET at the request.
pub fn plan(cycles: u32, cycle: u32, locked: u32, levels: &mut [u32; 4]) -> u32 {
    let [bs, bur, et, et_at_request] = levels;
    unsafe { foreign::trainer_plan(cycles, cycle, locked, bs, bur, et, et_at_request) }
}

pub fn class(code: u32, class: &mut u32, carried: &mut u32, error: &mut u32) -> u32 {
    unsafe { foreign::trainer_class(code, class, carried, error) }
}

pub fn code(class: u32, carried: u32, code: &mut u32) -> u32 {
    unsafe { foreign::trainer_code(class, carried, code) }
}

pub fn handler(state: &mut [u32]) -> u32 {
    unsafe { foreign::trainer_handler(state.as_mut_ptr(), state.len()) }
}

pub fn arbitrate(state: &mut [u32], high: u32, low: u32, lck: u32, grant: &mut u32, unit: &mut u32) -> u32 {
    unsafe { foreign::trainer_arbitrate(state.as_mut_ptr(), state.len(), high, low, lck, grant, unit) }
}

pub fn receive(receiver: &mut [u64], store: &mut [u8], sequence: u32, sender: u32, aid: u32, bytes: &[u8], completion: &mut [u64]) -> u32 {
    unsafe {
        foreign::trainer_receive(
            receiver.as_mut_ptr(), receiver.len(),
            store.as_mut_ptr(), store.len(),
            sequence, sender, aid,
            bytes.as_ptr(), bytes.len(),
            completion.as_mut_ptr(), completion.len(),
        )
    }
}

pub fn divide(message: &[u8], sender: u32, aid: u32, operations: &mut usize) -> u32 {
    unsafe { foreign::trainer_divide(message.as_ptr(), message.len(), sender, aid, operations) }
}

pub fn operation(message: &[u8], sender: u32, aid: u32, index: usize, sequence: &mut u32, offset: &mut usize, length: &mut usize) -> u32 {
    unsafe { foreign::trainer_operation(message.as_ptr(), message.len(), sender, aid, index, sequence, offset, length) }
}

pub fn read_interrupt(upper: u64, lower: u64, target: &mut u32, agent: &mut u32, device: &mut u32) -> u32 {
    unsafe { foreign::trainer_read_interrupt(upper, lower, target, agent, device) }
}

pub fn write_interrupt(target: u32, agent: u32, upper: &mut u64, lower: &mut u64) -> u32 {
    unsafe { foreign::trainer_write_interrupt(target, agent, upper, lower) }
}
