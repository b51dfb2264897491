"""Tests of the Python module: values of documents 01 and 02. python3 python/test_trainer.py, after ./library."""
import ctypes
import random
import sys
import unittest
from pathlib import Path
from unittest import mock

sys.path.insert(0, str(Path(__file__).resolve().parent))
import trainer
from trainer import Command, Device, Flush, Grant, HandlerState, Load, Order, Refused, Sequence, Slot, State, Store

DRILL = bytes.fromhex("01004809 00014801 01480A00 00C80400 01C80402 0102")


class Case(unittest.TestCase):
    MEMORY = bytes(n % 251 for n in range(2048))

    def refused(self, number, name, call, *given, place=None):
        with self.assertRaises(Refused) as caught:
            call(*given)
        self.assertEqual((caught.exception.number, caught.exception.name, caught.exception.place), (number, name, place))

    def slots(self, machine, slot):
        return [machine.slot(unit, slot) for unit in range(4)]

    def broken(self, machine, place, byte):
        """With this byte at this place of the directory each call is refused with 2, before 3 and 4."""
        machine._directory[place] = byte
        self.refused(2, "broken directory", machine.peek, 64)
        self.refused(2, "broken directory", machine.holders, 64)
        self.refused(2, "broken directory", machine.load, 4, 1)
        self.refused(2, "broken directory", machine.store, 4, 1, 0)
        self.refused(2, "broken directory", machine.flush, 4, 64)
        self.refused(2, "broken directory", machine.batch, [trainer.Flush(4, 64)])
        self.assertEqual(machine._directory[place], byte)


class Machines(Case):
    def test_orders_and_slots(self):
        machine = trainer.Machine()
        self.assertEqual(machine.store(0, 72, 9), (0, (Order(0, Command.MODIFIED_READ, 2, False),)))
        self.assertEqual(machine.slot(0, 2), Slot(State.MODIFIED, 2))
        reply = machine.load(1, 72)
        self.assertEqual(reply.value, 9)
        self.assertEqual(reply.orders, (Order(1, Command.READ, 2, True), Order(0, Command.COPYBACK, 2, False), Order(1, Command.READ, 2, False)))
        self.assertEqual([machine.slot(unit, 2) for unit in range(4)], [Slot(State.SHARED, 2)] * 2 + [Slot(State.INVALID, 0)] * 2)
        self.assertEqual(machine.store(1, 72, 10).orders, (Order(1, Command.INVALIDATE, 2, False),))
        self.assertEqual(machine.flush(1, 2).orders, (Order(1, Command.COPYBACK, 2, False),))
        self.assertEqual(machine.flush(1, 2), (0, ()))
        self.assertEqual(machine.memory[72:76], bytes([0, 0, 0, 10]))

    def test_peek_shows_the_newest(self):
        memory = bytes(n % 251 for n in range(2048))
        machine = trainer.Machine(memory)
        self.assertEqual(machine.peek(63), memory[2016:])
        self.assertEqual(machine.load(3, 2044).value, int.from_bytes(memory[2044:], "big"))
        machine.store(2, 64, 0x01020304)
        self.assertEqual(machine.peek(2), bytes([1, 2, 3, 4]) + memory[68:96])
        self.assertEqual(machine.cache[512 * 2 + 32 * 2 :][:4], bytes([1, 2, 3, 4]))
        self.assertEqual(machine.memory, memory)

    def test_refusals(self):
        machine = trainer.Machine()
        self.refused(1, "wrong size", trainer.Machine, bytes(2047))
        self.refused(1, "wrong size", trainer.Machine, bytes(2049))
        self.refused(3, "no unit", machine.load, 4, 2048)
        self.refused(4, "bad address", machine.load, 3, 2048)
        self.refused(4, "bad address", machine.store, 3, 2, 0)
        self.refused(4, "bad address", machine.flush, 3, 64)
        self.refused(4, "bad address", machine.peek, 64)
        self.refused(3, "no unit", machine.load, 2**32 - 1, 0)
        for bad in (-1, 2**32):
            self.assertRaises(OverflowError, machine.load, bad, 0)
        machine._directory[0] = 3
        self.refused(2, "broken directory", machine.load, 4, 1)
        self.refused(2, "broken directory", machine.peek, 64)


class Batches(Case):
    """Lists of accesses in one call."""

    # Document 01's drill, its values, and how many orders the first accesses of it give together.
    LIST = [Store(0, 72, 9), Load(1, 72), Store(1, 72, 10), Load(0, 584), Load(1, 584), Flush(1, 2)]
    VALUES, ORDERS = [0, 9, 0, 0, 0, 0], [0, 1, 4, 5, 6, 8, 8]

    def bytes_of(self, machine):
        return bytes(machine._directory), machine.memory, machine.cache

    def refused_at(self, number, index, machine, accesses, values, orders):
        with self.assertRaises(Refused) as caught:
            machine.batch(accesses)
        refused = caught.exception
        self.assertIsInstance(refused, trainer.BatchRefused)
        self.assertEqual((refused.number, refused.index, refused.values, refused.orders, refused.place), (number, index, values, orders, None))

    def call(self, machine, access):
        """The access by itself."""
        name = {Load: "load", Store: "store", Flush: "flush"}[type(access)]
        return getattr(machine, name)(*access)

    def raw(self, machine, numbers, room):
        """The call below the module: what it answers, and the values, index and orders that it leaves."""
        values, index, orders = (ctypes.c_uint32 * room)(*[77] * room), ctypes.c_uint32(78), ctypes.c_uint32(79)
        given = (machine._directory, machine._memory, machine._cache, (ctypes.c_uint32 * len(numbers))(*numbers))
        return trainer._call("batch", *given, values, index, orders), list(values), index.value, orders.value

    def test_document_01s_drill(self):
        for length in range(7):
            machine = trainer.Machine()
            batch = machine.batch(iter(self.LIST[:length]))
            self.assertEqual((batch.values, batch.orders), (self.VALUES[:length], self.ORDERS[length]))
        # Block 2 left unit 1 for block 18, which has its slot; its word went back.
        self.assertEqual(self.slots(machine, 2), [Slot(State.SHARED, 18)] * 2 + [Slot(State.INVALID, 0)] * 2)
        self.assertEqual(machine.memory[72:76], bytes([0, 0, 0, 10]))

    def test_refused_at_the_first_access_a_middle_one_and_the_last(self):
        bad = {3: [Load(4, 2), Store(256, 0, 1), Flush(2**32 - 1, 64)], 4: [Load(3, 2048), Store(0, 2, 1), Flush(3, 64), Flush(0, 256)]}
        bad[7] = [trainer.Loaded(0, 72), trainer.Stamp(2**64 - 1), Order(0, Command.READ, 2, False), trainer.Register(0, 1, 2, True, 3, 4)]
        for number, access, index in ((number, access, index) for number in bad for access in bad[number] for index in range(6)):
            with self.subTest(access, index=index):
                machine, before = trainer.Machine(), trainer.Machine()
                for made in self.LIST[:index]:
                    self.call(before, made)
                accesses = self.LIST[:index] + [access] + self.LIST[index + 1 :]
                self.refused_at(number, index, machine, accesses, self.VALUES[:index], self.ORDERS[index])
                self.assertEqual(self.bytes_of(machine), self.bytes_of(before))

    def test_what_a_refusal_says(self):
        with self.assertRaisesRegex(trainer.BatchRefused, r"^refused 3 \(no unit\) at access 2$") as caught:
            trainer.Machine().batch(self.LIST[:2] + [Load(4, 0), Load(5, 0)])
        self.assertEqual((caught.exception.name, caught.exception.values, caught.exception.orders), ("no unit", [0, 9], 4))

    def test_the_longest_list_and_a_longer_one(self):
        # A unit's first store to a block gives one order, its later ones none; two units that take the block from each other give three each.
        machine = trainer.Machine(self.MEMORY)
        before = self.bytes_of(machine)
        self.refused_at(9, 0, machine, [Store(3, 0, 1)] * 65537, [], 0)
        self.assertEqual(self.bytes_of(machine), before)
        self.assertEqual(machine.batch([Store(3, 0, 1)] * 65536), ([0] * 65536, 1))
        self.assertEqual(trainer.Machine().batch([Store(0, 72, 9), Store(1, 72, 8)] * 32768).orders, 1 + 3 * 65535)
        self.refused_at(4, 65535, machine, [Load(3, 0)] * 65535 + [Load(3, 1)], [1] * 65535, 0)

    def test_an_empty_list_is_accepted_whatever_is_lent(self):
        machine = trainer.Machine()
        self.assertEqual(machine.batch([]), ([], 0))
        for directory, memory, cache in ((b"\xff" * 194, bytes(2048), bytes(2048)), (b"", b"", b""), (bytes(195), bytes(2047), bytes(2049))):
            machine._directory, machine._memory, machine._cache = map(trainer._bytes, (directory, memory, cache))
            self.assertEqual((machine.batch([]), self.raw(machine, [], 3)), (([], 0), (0, [77] * 3, 0, 0)))
            self.assertEqual(self.bytes_of(machine), (directory, memory, cache))
            self.refused_at(2 if len(memory) == 2048 else 1, 0, machine, [Load(4, 1)], [], 0)
            self.refused_at(7, 0, machine, [trainer.Loaded(4, 1)], [], 0)

    def test_equal_to_single_calls_and_to_two_lists(self):
        for number in range(32):
            chosen, steal = {unit for unit in range(4) if number >> unit & 1}, number > 15
            with self.subTest(write_through=chosen, steal=steal):
                chance = random.Random(number)
                machines = [trainer.Machine(self.MEMORY, chosen, steal) for _ in range(3)]
                places = [(chance.randrange(4), 4 * chance.choice((0, 1, 128, 129, 256, 511)), chance.randrange(2**32)) for _ in range(300)]
                kinds = (lambda u, a, v: Load(u, a), Store, lambda u, a, v: Flush(u, a // 32))
                accesses = [chance.choice(kinds)(*place) for place in places]
                batch, cut = machines[0].batch(accesses), chance.randrange(301)
                replies = [self.call(machines[1], access) for access in accesses]
                self.assertEqual(batch, ([reply.value for reply in replies], sum(len(reply.orders) for reply in replies)))
                first, second = machines[2].batch(accesses[:cut]), machines[2].batch(accesses[cut:])
                self.assertEqual(batch, (first.values + second.values, first.orders + second.orders))
                self.assertEqual([self.bytes_of(machine) for machine in machines[1:]], [self.bytes_of(machines[0])] * 2)

    def test_the_values_space_and_a_list_that_is_cut(self):
        numbers = [1, 0, 72, 9, 0, 1, 72, 5, 2, 1, 2, 6]
        # How many numbers, the size of the values space, and what is answered: 9 is tested before 8.
        for length, room, number in ((12, 2, 9), (12, 0, 9), (15, 2, 9), (13, 3, 8), (11, 2, 8), (11, 1, 9), (1, 0, 8), (3, 9, 8), (4, 0, 9)):
            machine = trainer.Machine(self.MEMORY)
            before = self.bytes_of(machine)
            self.assertEqual(self.raw(machine, (numbers + [3, 3, 3])[:length], room), (number, [77] * room, 0, 0))
            self.assertEqual(self.bytes_of(machine), before)
        # The store gives one order, the load of the block EM in unit 0 three, the flush of a block SU none. The places behind the list stay.
        for room in (3, 4, 9):
            self.assertEqual(self.raw(trainer.Machine(), numbers, room), (0, [0, 9, 0] + [77] * (room - 3), 3, 4))

    def test_unknown_kinds(self):
        for kind in (3, 7, 255, 256, 257, 258, 65536, 2**31, 2**32 - 1):
            machine = trainer.Machine()
            self.assertEqual(self.raw(machine, [1, 0, 72, 9, kind, 4, 1, 0, 0, 0, 72, 0], 3), (7, [0, 77, 77], 1, 1))
            self.assertEqual(machine.load(0, 72), (9, ()))

    def test_numbers_of_more_than_32_bits(self):
        machine = trainer.Machine(self.MEMORY)
        before = self.bytes_of(machine)
        for bad in (-1, 2**32):
            for access in (Load(bad, 0), Load(0, bad), Store(bad, 0, 0), Store(0, bad, 0), Store(0, 0, bad), Flush(bad, 0), Flush(0, bad)):
                self.assertRaises(OverflowError, machine.batch, self.LIST + [access])
        self.assertEqual(self.bytes_of(machine), before)


class WriteThrough(Case):
    """Machines of which some units have write-through boards."""

    def test_the_kinds_are_kept(self):
        for number in range(16):
            chosen = {unit for unit in range(4) if number >> unit & 1}
            machine = trainer.Machine(write_through=chosen)
            machine.store(0, 72, 9)
            machine.load(1, 72)
            machine.flush(2, 2)
            self.assertEqual((machine.write_through, machine._directory[128]), (chosen, number))
        self.assertEqual(trainer.Machine(write_through=iter((2, 2, 0))).write_through, {0, 2})
        self.assertRaises(AttributeError, setattr, trainer.Machine(), "write_through", {1})

    def test_a_store_where_another_unit_has_the_block_modified(self):
        machine = trainer.Machine(self.MEMORY, (2, 3))
        machine.store(0, 72, 9)
        machine.store(0, 76, 5)
        orders = (Order(2, Command.MEMORY_WRITE, 2, True), Order(0, Command.COPYBACK, 2, False), Order(2, Command.MEMORY_WRITE, 2, False))
        self.assertEqual(machine.store(2, 72, 10), (0, orders))
        self.assertEqual(self.slots(machine, 2), [Slot(State.INVALID, 0)] * 4)
        # The copyback's bytes, and over them the word; in unit 0's cache the bytes stay.
        block = self.MEMORY[64:72] + bytes([0, 0, 0, 10, 0, 0, 0, 5]) + self.MEMORY[80:96]
        self.assertEqual((machine.memory[64:96], machine.peek(2)), (block, block))
        self.assertEqual(machine.cache[72:80], bytes([0, 0, 0, 9, 0, 0, 0, 5]))
        self.assertEqual([machine.load(unit, 72) for unit in range(4)], [(10, (Order(unit, Command.READ, 2, False),)) for unit in range(4)])

    def test_a_store_where_the_unit_holds_the_block(self):
        machine = trainer.Machine(self.MEMORY, (1, 2))
        for unit in range(4):
            machine.load(unit, 72)
        before = machine.cache
        self.assertEqual(machine.store(2, 72, 0x01020304), (0, (Order(2, Command.MEMORY_WRITE, 2, False),)))
        self.assertEqual(self.slots(machine, 2), [Slot(State.INVALID, 0)] * 2 + [Slot(State.SHARED, 2), Slot(State.INVALID, 0)])
        # Slot 2 of unit 2 stands at 1,088 of the cache store, the word 8 bytes on. Nothing else changes.
        word = bytes([1, 2, 3, 4])
        self.assertEqual(machine.cache, before[:1096] + word + before[1100:])
        self.assertEqual(machine.memory, self.MEMORY[:72] + word + self.MEMORY[76:])
        self.assertEqual(machine.load(2, 72), (0x01020304, ()))
        self.assertEqual(machine.load(1, 72), (0x01020304, (Order(1, Command.READ, 2, False),)))

    def test_a_store_that_misses_changes_no_slot_of_the_unit(self):
        machine = trainer.Machine(self.MEMORY, (3,))
        machine.load(3, 584)
        machine.load(1, 72)
        before = machine.cache
        self.assertEqual(machine.store(3, 72, 7), (0, (Order(3, Command.MEMORY_WRITE, 2, False),)))
        self.assertEqual(self.slots(machine, 2), [Slot(State.INVALID, 0)] * 3 + [Slot(State.SHARED, 18)])
        self.assertEqual(machine.cache, before)
        self.assertEqual(machine.memory, self.MEMORY[:72] + bytes([0, 0, 0, 7]) + self.MEMORY[76:])
        self.assertEqual(machine.load(3, 584).orders, ())

    def test_loads_and_flushes_are_as_before(self):
        machine = trainer.Machine(self.MEMORY, (3,))
        machine.store(0, 72, 9)
        orders = (Order(3, Command.READ, 2, True), Order(0, Command.COPYBACK, 2, False), Order(3, Command.READ, 2, False))
        self.assertEqual(machine.load(3, 72), (9, orders))
        self.assertEqual(self.slots(machine, 2), [Slot(State.SHARED, 2)] + [Slot(State.INVALID, 0)] * 2 + [Slot(State.SHARED, 2)])
        # A copyback unit's store takes the block from the write-through unit.
        self.assertEqual(machine.store(0, 72, 10).orders, (Order(0, Command.INVALIDATE, 2, False),))
        self.assertEqual(self.slots(machine, 2), [Slot(State.MODIFIED, 2)] + [Slot(State.INVALID, 0)] * 3)
        # Another block in the slot goes without a copyback, and so does a flushed one.
        machine.store(3, 584, 11)
        machine.load(3, 584)
        self.assertEqual(machine.load(3, 1096).orders, (Order(3, Command.READ, 34, False),))
        self.assertEqual(machine.slot(3, 2), Slot(State.SHARED, 34))
        self.assertEqual(machine.flush(3, 34), (0, ()))
        self.assertEqual(machine.slot(3, 2), Slot(State.INVALID, 0))
        self.assertEqual(machine.load(1, 584).value, 11)

    def test_units_refused_at_cold_start(self):
        for units in ((4,), (0, 4), (5, 4), (31,), (32,), (2**32 - 1,)):
            self.refused(3, "no unit", trainer.Machine, self.MEMORY, units)
        self.refused(3, "no unit", trainer.Machine, self.MEMORY[1:], (4,))
        self.refused(1, "wrong size", trainer.Machine, self.MEMORY[1:], (3,))

    def test_units_that_are_no_32_bit_number_overflow(self):
        for bad in (-1, 2**32):
            self.assertRaises(OverflowError, trainer.Machine, self.MEMORY, (0, bad))

    def test_what_a_cold_start_writes(self):
        # Bytes of the memory store, of the cache store and of the directory's space; the set; steal; the refusal.
        cases = [(2047, 2048, 193, 16, 2, 9), (2048, 2048, 130, 0, 0, 9), (2047, 2048, 194, 16, 2, 3), (2048, 2048, 195, 2**32 - 1, 0, 3)]
        cases += [(2047, 2048, 194, 15, 2, 8), (2048, 2048, 195, 0, 2**32 - 1, 8), (2047, 2048, 195, 10, 1, 1), (2048, 2047, 194, 15, 0, 1)]
        for memory_size, cache_size, space, chosen, steal, number in cases + [(2048, 2048, 195, 5, 1, 0), (2048, 2048, 194, 0, 0, 0)]:
            with self.subTest(number, chosen=chosen, steal=steal):
                memory, cache, directory = (trainer._bytes(b"\xee" * size) for size in (memory_size, cache_size, space))
                self.assertEqual(trainer._call("cold_start", memory, cache, trainer._u32(chosen), trainer._u32(steal), directory), number)
                written = b"" if number in (9, 3, 8) else bytes(128) + bytes([chosen, steal]) + bytes(64)
                self.assertEqual(bytes(directory), written + b"\xee" * (space - len(written)))
                self.assertEqual((set(memory), set(cache)), ({0xEE}, {0xEE if number else 0}))

    def test_kinds_that_are_no_set_of_units(self):
        machine = trainer.Machine()
        for kinds in (16, 17, 128, 255):
            self.broken(machine, 128, kinds)

    def test_a_modified_slot_of_a_write_through_unit(self):
        machine = trainer.Machine()
        machine.store(0, 72, 9)
        self.broken(machine, 128, 1)
        self.broken(machine, 128, 15)
        for kinds in (2, 14, 0):
            machine._directory[128] = kinds
            self.assertEqual(machine.load(0, 72), (9, ()))


class Steal(Case):
    """Machines with steal on."""

    PAIRS = [(asker, holder) for asker in range(4) for holder in range(4) if asker != holder]

    def retried(self, asker, command, holder):
        """The order for block 2, retried, and the holder's copyback."""
        return (Order(asker, command, 2, True), Order(holder, Command.COPYBACK, 2, False))

    def copies(self, machine, *units):
        """The 32 bytes of each unit's slot 2."""
        return [machine.cache[512 * unit + 64 :][:32] for unit in units]

    def block(self, *words):
        """Block 2 of MEMORY with these words at 72."""
        new = b"".join(word.to_bytes(4, "big") for word in words)
        return self.MEMORY[64:72] + new + self.MEMORY[72 + len(new) : 96]

    def test_steal_is_kept(self):
        for number in range(32):
            chosen, steal = {unit for unit in range(4) if number >> unit & 1}, number > 15
            machine = trainer.Machine(write_through=chosen, steal=steal)
            machine.store(0, 72, 9)
            machine.load(1, 72)
            machine.store(2, 72, 10)
            machine.flush(2, 2)
            self.assertEqual((machine.steal, machine.write_through, machine._directory[129]), (steal, chosen, number // 16))
        self.assertIs(trainer.Machine().steal, False)
        self.assertIs(trainer.Machine(steal=1).steal, True)
        self.assertRaises(AttributeError, setattr, trainer.Machine(), "steal", True)

    def test_a_stolen_read(self):
        for asker, holder in self.PAIRS:
            with self.subTest(asker=asker, holder=holder):
                machine = trainer.Machine(self.MEMORY, steal=True)
                machine.store(holder, 72, 9)
                machine.store(holder, 76, 5)
                self.assertEqual(machine.load(asker, 72), (9, self.retried(asker, Command.READ, holder)))
                shared = [Slot(State.SHARED, 2) if unit in (asker, holder) else Slot(State.INVALID, 0) for unit in range(4)]
                self.assertEqual(self.slots(machine, 2), shared)
                self.assertEqual([machine.memory[64:96]] + self.copies(machine, asker, holder), [self.block(9, 5)] * 3)
                self.assertEqual(machine.load(asker, 76), (5, ()))

    def test_a_stolen_modified_read(self):
        for asker, holder in self.PAIRS:
            with self.subTest(asker=asker, holder=holder):
                machine = trainer.Machine(self.MEMORY, steal=True)
                machine.store(holder, 72, 9)
                self.assertEqual(machine.store(asker, 76, 5), (0, self.retried(asker, Command.MODIFIED_READ, holder)))
                # The old holder becomes I; its bytes stay, and memory has them too.
                self.assertEqual(self.slots(machine, 2), [Slot(State.MODIFIED, 2) if unit == asker else Slot(State.INVALID, 0) for unit in range(4)])
                self.assertEqual([machine.memory[64:96]] + self.copies(machine, holder, asker), [self.block(9)] * 2 + [self.block(9, 5)])
                self.assertEqual(machine.peek(2), self.block(9, 5))

    def test_another_block_modified_in_the_slot(self):
        for asker, holder in self.PAIRS:
            with self.subTest(asker=asker, holder=holder):
                evicted = (Order(asker, Command.COPYBACK, 18, False),)
                for store in (False, True):
                    machine = trainer.Machine(self.MEMORY, steal=True)
                    machine.store(holder, 72, 9)
                    machine.store(asker, 584, 1)
                    orders = (machine.store(asker, 72, 5) if store else machine.load(asker, 72)).orders
                    self.assertEqual(orders, evicted + self.retried(asker, Command.MODIFIED_READ if store else Command.READ, holder))
                    self.assertEqual((machine.memory[64:96], machine.memory[584:588]), (self.block(9), bytes([0, 0, 0, 1])))
                    self.assertEqual(machine.load(asker, 72), (5 if store else 9, ()))

    def test_with_write_through_units(self):
        machine = trainer.Machine(self.MEMORY, (1, 2), steal=True)
        machine.store(3, 72, 9)
        machine.load(1, 584)
        self.assertEqual(machine.load(1, 72), (9, self.retried(1, Command.READ, 3)))
        self.assertEqual(self.slots(machine, 2), [Slot(State.INVALID, 0), Slot(State.SHARED, 2), Slot(State.INVALID, 0), Slot(State.SHARED, 2)])
        # A memory write is given again.
        machine.store(3, 72, 10)
        again = (Order(2, Command.MEMORY_WRITE, 2, False),)
        self.assertEqual(machine.store(2, 76, 5), (0, self.retried(2, Command.MEMORY_WRITE, 3) + again))
        self.assertEqual((self.slots(machine, 2), machine.memory[64:96]), ([Slot(State.INVALID, 0)] * 4, self.block(10, 5)))
        self.assertEqual(machine.store(2, 76, 6), (0, again))

    def test_with_steal_off_the_order_is_given_again(self):
        machine = trainer.Machine(self.MEMORY)
        machine.store(0, 72, 9)
        self.assertEqual(machine.store(1, 76, 5).orders, self.retried(1, Command.MODIFIED_READ, 0) + (Order(1, Command.MODIFIED_READ, 2, False),))
        self.assertEqual(machine.load(3, 72), (9, self.retried(3, Command.READ, 1) + (Order(3, Command.READ, 2, False),)))

    def test_orders_that_are_not_retried(self):
        # With steal on and off the same: missed, beside an SU holder, held, SU, EM, missed by a store, with an EM block in the slot, memory write, flush.
        calls = [("load", 0, 72), ("load", 3, 72), ("load", 3, 76), ("store", 3, 72, 7), ("store", 3, 76, 8), ("store", 2, 96, 9), ("load", 2, 608)]
        calls += [("store", 0, 608, 6), ("store", 0, 96, 5), ("store", 1, 608, 4), ("flush", 0, 2), ("flush", 3, 2)]
        machines = [trainer.Machine(self.MEMORY, (1,), steal) for steal in (False, True)]
        counts = []
        for name, *numbers in calls:
            off, on = (getattr(machine, name)(*numbers) for machine in machines)
            self.assertEqual(off, on)
            counts.append(len(on.orders))
        self.assertEqual(counts, [1, 1, 0, 1, 0, 1, 2, 1, 2, 1, 0, 1])
        self.assertEqual(*((machine.memory, machine.cache, bytes(machine._directory[:129])) for machine in machines))

    def test_steal_refused_at_cold_start(self):
        for steal in (2, 3, 255, 256, 2**32 - 1):
            self.refused(8, "field range", trainer.Machine, self.MEMORY, (), steal)
        self.refused(8, "field range", trainer.Machine, self.MEMORY[1:], (3,), 2)
        self.refused(3, "no unit", trainer.Machine, self.MEMORY[1:], (4,), 2)
        self.refused(1, "wrong size", trainer.Machine, self.MEMORY[1:], (3,), True)

    def test_steal_that_is_no_32_bit_number_overflows(self):
        for bad in (-1, 2**32):
            self.assertRaises(OverflowError, trainer.Machine, self.MEMORY, (), bad)

    def test_steal_above_1_in_the_directory(self):
        machine = trainer.Machine()
        machine.store(0, 72, 9)
        for steal in (2, 3, 128, 255):
            self.broken(machine, 129, steal)
        for steal in (1, 0):
            machine._directory[129] = steal
            self.assertEqual(machine.load(0, 72), (9, ()))


class Holders(Case):
    """Who holds a block, and the sets in the directory: that of block b stands at 130 + b."""

    NOBODY = trainer.Holders(0, 0)

    def lamp(self, machine, block, calls):
        """What the lamp of a block shows after each call: the set and the count."""
        shown = []
        for name, *numbers in calls:
            getattr(machine, name)(*numbers)
            shown.append(tuple(machine.holders(block)))
            self.assertEqual(machine._directory[130 + block], shown[-1][0])
        return shown

    def sets(self, machine):
        """The sets of all blocks by the machine's valid slots."""
        sets = [0] * 64
        for unit in range(4):
            for state, block in (machine.slot(unit, slot) for slot in range(16)):
                sets[block] += 2**unit if state != State.INVALID else 0
        return sets

    def test_a_lamp_follows_a_run(self):
        calls = [("load", 0, 72), ("load", 3, 72), ("store", 3, 72, 9), ("load", 1, 72), ("load", 3, 584), ("flush", 1, 2)]
        # Unit 3 stores as a copyback unit, as a write-through one, and where unit 1's load is then stolen. Block 18 has block 2's slot.
        for settings in (((), False), ((3,), False), ((), True), ((3,), True)):
            with self.subTest(settings):
                machines = [trainer.Machine(self.MEMORY, *settings) for _ in range(2)]
                self.assertEqual([machines[0].holders(block) for block in range(64)], [self.NOBODY] * 64)
                self.assertEqual(self.lamp(machines[0], 2, calls), [(1, 1), (9, 2), (8, 1), (10, 2), (2, 1), (0, 0)])
                self.assertEqual(self.lamp(machines[1], 18, calls), [(0, 0)] * 4 + [(8, 1)] * 2)

    def test_a_lamp_of_a_write_through_unit(self):
        calls = [("load", 1, 72), ("load", 0, 72), ("store", 1, 72, 9), ("store", 0, 72, 8), ("store", 1, 72, 7), ("load", 2, 72), ("store", 1, 76, 6)]
        shown = [(2, 1), (3, 2), (2, 1), (1, 1), (0, 0), (4, 1), (0, 0)]
        for steal in (False, True):
            self.assertEqual(self.lamp(trainer.Machine(self.MEMORY, (1,), steal), 2, calls), shown)

    def test_every_set_and_its_count(self):
        for number in range(16):
            machine = trainer.Machine()
            units = [unit for unit in range(4) if number >> unit & 1]
            for unit in units:
                machine.load(unit, 2044)
            self.assertEqual(machine.holders(63), trainer.Holders(number, len(units)))
            self.assertEqual((machine.holders(63).set, machine.holders(63).count), (number, len(units)))
            self.assertEqual([machine.holders(block) for block in (15, 47, 62)], [self.NOBODY] * 3)

    def call(self, machine, chance):
        """A call at random on three blocks of one slot and the last block."""
        kind, unit, address = chance.randrange(5), chance.randrange(4), 4 * chance.choice((0, 128, 256, 511))
        if kind == 0:
            machine.store(unit, address, 5)
        elif kind == 1:
            machine.flush(unit, address // 32)
        else:
            machine.load(unit, address)

    def test_lamps_of_lists_of_calls(self):
        for number in range(32):
            chosen, steal = {unit for unit in range(4) if number >> unit & 1}, number > 15
            with self.subTest(write_through=chosen, steal=steal):
                chance, machine, met = random.Random(number), trainer.Machine(self.MEMORY, chosen, steal), set()
                for _ in range(500):
                    self.call(machine, chance)
                    sets = self.sets(machine)
                    self.assertEqual(list(machine._directory[130:]), sets)
                    for block in (0, 16, 32, 48, 63):
                        self.assertEqual(machine.holders(block), (sets[block], bin(sets[block]).count("1")))
                    met |= set(sets)
                self.assertEqual(met, set(range(16)))

    def test_blocks_out_of_range(self):
        machine = trainer.Machine()
        machine.load(0, 0)
        machine.store(3, 2044, 9)
        self.assertEqual((machine.holders(0), machine.holders(63)), ((1, 1), (8, 1)))
        for block in (64, 127, 255, 256, 319, 2**31, 2**32 - 64, 2**32 - 1):
            self.refused(4, "bad address", machine.holders, block)
        for bad in (-1, 2**32):
            self.assertRaises(OverflowError, machine.holders, bad)

    def test_sets_that_differ_from_the_slots(self):
        machine = trainer.Machine(write_through=(0,), steal=True)
        for unit in (0, 1):
            machine.load(unit, 72)
        machine.store(3, 584, 9)
        before = bytes(machine._directory)
        self.assertEqual((before[132], before[148]), (3, 8))
        # Of block 2, in units 0 and 1; of block 18, EM in unit 3; of block 3, which nobody holds, and of the first and last block.
        damaged = {132: (0, 1, 2, 7, 12, 19, 255), 148: (0, 1, 9, 24, 136), 133: (1, 8, 16, 255), 130: (1, 128), 193: (8, 128)}
        for place, sets in damaged.items():
            for units in sets:
                with self.subTest(place=place, set=units):
                    self.broken(machine, place, units)
            machine._directory[place] = before[place]
            self.assertEqual((machine.holders(2), machine.holders(18), machine.load(0, 72).orders), ((3, 2), (8, 1), ()))
        # The sets of two blocks exchanged; a refused call leaves them.
        exchanged = before[:132] + before[148:149] + before[133:148] + before[132:133] + before[149:]
        machine._directory = trainer._bytes(exchanged)
        self.refused(2, "broken directory", machine.holders, 2)
        self.refused(2, "broken directory", machine.flush, 3, 18)
        self.assertEqual(bytes(machine._directory), exchanged)

    def test_directories_of_another_length(self):
        for size in (0, 128, 130, 193, 195, 388):
            machine = trainer.Machine()
            machine._directory = trainer._bytes(bytes(size))
            with self.subTest(size):
                self.refused(2, "broken directory", machine.holders, 64)
                self.refused(2, "broken directory", machine.peek, 64)
                self.refused(2, "broken directory", machine.load, 4, 1)
                self.refused(2, "broken directory", machine.store, 4, 1, 0)
                self.refused(2, "broken directory", machine.flush, 4, 64)

    def test_what_a_refused_call_writes(self):
        good, broken = bytes(194), bytes(132) + b"\x01" + bytes(61)
        for directory, block, number in ((good, 63, 0), (good, 64, 4), (good, 2**32 - 1, 4), (broken, 2, 2), (broken, 64, 2), (good[1:], 64, 2)):
            lent, units, count = trainer._bytes(directory), ctypes.c_uint32(77), ctypes.c_uint32(78)
            self.assertEqual(trainer._call("holders", lent, trainer._u32(block), units, count), number)
            self.assertEqual((units.value, count.value), (77, 78) if number else (0, 0))
            self.assertEqual(bytes(lent), directory)


class PlainMemory(Case):
    """Lists of calls beside a plain memory, on machines with each set of write-through boards, with steal on and off."""

    # How many write-through and how many copyback boards a machine needs for an order, at least; then whether it is of a write-through unit, its
    # command, and whether it is retried.
    ORDERS = [
        (1, 0, True, Command.READ, False),
        (1, 0, True, Command.MEMORY_WRITE, False),
        (1, 1, True, Command.READ, True),
        (1, 1, True, Command.MEMORY_WRITE, True),
        (0, 1, False, Command.READ, False),
        (0, 1, False, Command.MODIFIED_READ, False),
        (0, 1, False, Command.INVALIDATE, False),
        (0, 1, False, Command.COPYBACK, False),
        (0, 2, False, Command.READ, True),
        (0, 2, False, Command.MODIFIED_READ, True),
    ]

    def check_retried(self, orders, steal):
        """Behind a retried order stands the holder's copyback, and then the order again, but for a read and a modified read with steal on."""
        for at, order in enumerate(orders):
            if order.retried:
                again = () if steal and order.command != Command.MEMORY_WRITE else (order._replace(retried=False),)
                self.assertEqual((orders[at + 1].command, orders[at + 2 :]), (Command.COPYBACK, again))

    def call(self, machine, plain, chance):
        """A call at random on both: how many orders the bill allows it, and those that it gave."""
        unit, address, value = chance.randrange(4), 4 * chance.choice((0, 1, 128, 129, 256, 511)), chance.randrange(2**32)
        kind = chance.randrange(5)
        if kind < 2:
            allowed, reply = 2 if machine.steal else 3, machine.store(unit, address, value)
            plain[address : address + 4] = value.to_bytes(4, "big")
        elif kind < 4:
            allowed, reply = 1, machine.load(unit, address)
            self.assertEqual(reply.value, int.from_bytes(plain[address : address + 4], "big"))
        else:
            allowed, reply = 0, machine.flush(unit, address // 32)
        self.assertEqual(machine.peek(address // 32), plain[address // 32 * 32 :][:32])
        return allowed, reply.orders

    def orders_of_a_list(self, chosen, steal):
        """The sorts of orders that a list of calls gave, as the rows of ORDERS have them."""
        chance = random.Random(1)
        plain = bytearray(chance.randrange(256) for _ in range(2048))
        machine = trainer.Machine(plain, chosen, steal)
        bill, count, sorts = 0, 0, set()
        for _ in range(1000):
            allowed, orders = self.call(machine, plain, chance)
            bill, count = bill + allowed, count + len(orders)
            self.assertLessEqual(count, bill)
            self.check_retried(orders, steal)
            sorts |= {(order.unit in chosen, order.command, order.retried) for order in orders}
        return sorts

    def test_lists_of_calls(self):
        for number in range(32):
            chosen, steal = {unit for unit in range(4) if number >> unit & 1}, number > 15
            with self.subTest(write_through=chosen, steal=steal):
                sorts = {tuple(row[2:]) for row in self.ORDERS if row[0] <= len(chosen) and row[1] <= 4 - len(chosen)}
                self.assertEqual(self.orders_of_a_list(chosen, steal), sorts)

    def test_the_bill_is_met(self):
        # A store and another unit's load; with steal on also a store and a write-through unit's store.
        for steal, name, numbers, counts in ((False, "load", (1, 72), (1, 3)), (True, "load", (1, 72), (1, 2)), (True, "store", (1, 72, 12), (1, 3))):
            machine = trainer.Machine(write_through=(1,), steal=steal)
            self.assertEqual((len(machine.store(0, 72, 9).orders), len(getattr(machine, name)(*numbers).orders)), counts)


class Tapes(Case):
    RECORDS = [
        (trainer.Load(3, 584), "00 03 C8 04"),
        (trainer.Store(2, 72, 300), "01 02 48 AC 02"),
        (trainer.Flush(1, 63), "02 01 3F"),
        (Order(3, Command.MODIFIED_READ, 5, True), "03 03 01 05 01"),
        (Order(2, Command.MEMORY_WRITE, 63, True), "03 02 04 3F 01"),
        (Order(0, Command.MEMORY_WRITE, 18, False), "03 00 04 12 00"),
        (trainer.Answer(7, 6, 5, 128), "04 07 06 05 80 01"),
        (trainer.Register(1, 2, 3, True, 2**32 - 1, 7), "05 01 02 03 01 FF FF FF FF 0F 07"),
        (trainer.Loaded(2, 127), "06 02 7F"),
        (trainer.Stamp(0), "08 00"),
        (trainer.Stamp(300), "08 AC 02"),
        (trainer.Stamp(2**32), "08 80 80 80 80 10"),
        (trainer.Stamp(2**63 - 1), "08 FF FF FF FF FF FF FF FF 7F"),
        (trainer.Stamp(2**63), "08 80 80 80 80 80 80 80 80 80 01"),
        (trainer.Stamp(2**64 - 1), "08 FF FF FF FF FF FF FF FF FF 01"),
    ]

    def test_each_kind_both_ways(self):
        for record, text in self.RECORDS:
            tape = bytes.fromhex(text)
            self.assertEqual(trainer.write_record(record), tape)
            reading = trainer.read_record(tape)
            self.assertEqual(reading, (record, len(tape)))
            self.assertEqual(repr(reading.record), repr(record))
        records = [record for record, _ in self.RECORDS]
        self.assertEqual(list(trainer.read_tape(trainer.write_tape(records))), records)

    def test_refusals(self):
        cases = [("80 80", 5, "cut", 0), ("80 00", 6, "bad number", 0), ("07", 7, "unknown kind", 0), ("09", 7, "unknown kind", 0)]
        cases += [("00 00 C8 84 00", 6, "bad number", 2), ("00 00 80 10", 8, "field range", 2), ("04 03 03 00 00", 8, "field range", 2)]
        # Command 5; a memory write with retried 2; an invalidate and a copyback that are retried.
        cases += [("03 00 05 00 00", 8, "field range", 2), ("03 00 04 00 02", 8, "field range", 4)]
        cases += [("03 00 02 00 01", 8, "field range", 4), ("03 00 03 00 01", 8, "field range", 4)]
        for text, number, name, place in cases:
            self.refused(number, name, trainer.read_record, bytes.fromhex(text), place=place)
        self.refused(5, "cut", trainer.read_record, b"", 1, place=1)
        self.assertIsNone(trainer.read_record(b""))
        self.assertIsNone(trainer.read_record(DRILL, len(DRILL)))
        records = trainer.read_tape(bytes.fromhex("020102 0204"))
        self.assertEqual(next(records), trainer.Flush(1, 2))
        self.refused(8, "field range", next, records, place=4)
        self.refused(8, "field range", trainer.write_record, trainer.Store(4, 72, 300), 0)
        self.refused(9, "no room", trainer.write_record, trainer.Store(2, 72, 300), 4)
        for order in (Order(0, Command.COPYBACK, 0, True), Order(0, 5, 0, False), Order(0, Command.MEMORY_WRITE, 0, 2)):
            self.refused(8, "field range", trainer.write_record, order)
        self.refused(8, "field range", trainer.write_record, trainer.Loaded(0, 2**32))

    def test_long_numbers_read(self):
        cases = [("80" * 5, 5, "cut", 0), ("80" * 9, 5, "cut", 0), ("80" * 10, 6, "bad number", 0), ("80" * 9 + "00", 6, "bad number", 0)]
        cases += [("08", 5, "cut", 1), ("08" + "FF" * 9, 5, "cut", 1), ("08" + "FF" * 9 + "02", 6, "bad number", 1), ("08 AC 82 00", 6, "bad number", 1)]
        # 2^32 is `80 80 80 80 10`, the largest number nine bytes FF and `01`: as a kind, and in older fields.
        cases += [("80 80 80 80 10 00 00", 7, "unknown kind", 0), ("FF" * 9 + "01", 7, "unknown kind", 0)]
        cases += [("00 80 80 80 80 10 00", 8, "field range", 1), ("00 00 80 80 80 80 10", 8, "field range", 2)]
        cases += [("01 00 00 80 80 80 80 10", 8, "field range", 3), ("01 00 00" + "FF" * 9 + "01", 8, "field range", 3)]
        cases += [("05 01 02 03 01 80 80 80 80 10 07", 8, "field range", 5), ("06 00 80 80 80 80 10", 8, "field range", 2)]
        for text, number, name, place in cases:
            with self.subTest(text):
                self.refused(number, name, trainer.read_record, bytes.fromhex(text), place=place)

    def test_long_numbers_written(self):
        older = [trainer.Load(2**32, 0), trainer.Load(0, 2**32), trainer.Store(0, 0, 2**32)]
        older += [trainer.Register(1, 2, 3, True, 2**32, 7), trainer.Loaded(0, 2**64 - 1)]
        for record in older:
            self.refused(8, "field range", trainer.write_record, record)
        self.assertEqual(len(trainer.write_record(trainer.Stamp(2**64 - 1), 11)), 11)
        self.refused(9, "no room", trainer.write_record, trainer.Stamp(2**64 - 1), 10)
        self.refused(9, "no room", trainer.write_record, trainer.Stamp(0), 1)

    def test_cycles_that_are_no_64_bit_number_overflow(self):
        for bad in (-1, 2**64):
            self.assertRaises(OverflowError, trainer.write_record, trainer.Stamp(bad))
            self.assertRaises(OverflowError, trainer.record_size, trainer.Stamp(bad))

    def exactly(self, record, size):
        """So many bytes are the size of a record, and the least room that it is written in."""
        with self.subTest(record):
            self.assertEqual(trainer.record_size(record), size)
            self.assertEqual(len(trainer.write_record(record)), size)
            self.assertEqual(len(trainer.write_record(record, size)), size)
            self.refused(9, "no room", trainer.write_record, record, size - 1)

    def test_sizes_of_numbers(self):
        # A number's groups: significant bits divided by seven, rounded up; one for zero. The kind of a stamp takes one byte more.
        groups = [(0, 1), (1, 1), (300, 2), (2**32 - 1, 5), (2**32, 5), (2**64 - 1, 10)]
        for k in range(1, 10):
            groups += [(2 ** (7 * k) - 1, k), (2 ** (7 * k), k + 1)]
        for number, count in groups:
            self.exactly(trainer.Stamp(number), 1 + count)

    def test_sizes_of_each_kind(self):
        for record, text in self.RECORDS:
            self.exactly(record, len(bytes.fromhex(text)))
        # The least and the most that a kind takes.
        cases = [(trainer.Load(0, 0), 3), (trainer.Load(3, 2044), 4), (trainer.Store(0, 0, 0), 4), (trainer.Store(3, 2044, 2**32 - 1), 9)]
        cases += [(trainer.Flush(0, 0), 3), (trainer.Flush(3, 63), 3), (Order(0, Command.READ, 0, False), 5), (Order(3, Command.MEMORY_WRITE, 63, True), 5)]
        cases += [(trainer.Answer(0, 1, 0, 0), 5), (trainer.Answer(7, 6, 255, 255), 7), (trainer.Loaded(0, 0), 3), (trainer.Loaded(3, 2**32 - 1), 7)]
        cases += [(trainer.Register(0, 1, 0, False, 0, 0), 7), (trainer.Register(7, 6, 255, True, 2**32 - 1, 7), 12)]
        for record, size in cases:
            self.exactly(record, size)

    def test_without_a_given_room_it_is_the_size(self):
        with mock.patch.object(trainer, "record_size", return_value=2):
            self.refused(9, "no room", trainer.write_record, trainer.Stamp(300))

    def test_sizes_refused(self):
        cases = [trainer.Load(4, 0), trainer.Load(0, 2048), trainer.Load(0, 2), trainer.Store(0, 0, 2**32), trainer.Flush(0, 64)]
        cases += [Order(0, 5, 0, False), Order(0, Command.COPYBACK, 0, True), trainer.Answer(3, 3, 0, 0), trainer.Answer(0, 1, 0, 256)]
        cases += [trainer.Register(1, 2, 256, True, 0, 7), trainer.Register(1, 2, 3, True, 0, 8), trainer.Loaded(0, 2**64 - 1)]
        for record in cases:
            with self.subTest(record):
                self.refused(8, "field range", trainer.record_size, record)

    def test_sizes_of_bare_numbers(self):
        # What no record of this module stands for: another count of numbers, a kind that is none, numbers behind the last field.
        zeros = [0] * 6
        cases = [([], 8), (zeros, 8), ([0] * 8, 8), ([7] * 6, 8), ([7] + zeros, 7), ([9, 4] + zeros[1:], 7), ([264] + zeros, 7), ([2**64 - 1] + zeros, 7)]
        for numbers, number in cases + [([0, 4] + zeros[1:], 8)]:
            with self.subTest(numbers):
                size = ctypes.c_size_t(77)
                self.assertEqual((trainer._call("record_size", (ctypes.c_uint64 * len(numbers))(*numbers), size), size.value), (number, 77))
        size = ctypes.c_size_t(77)
        self.assertEqual((trainer._call("record_size", (ctypes.c_uint64 * 7)(8, 300, *[2**64 - 1] * 5), size), size.value), (0, 3))

    def test_stamps_in_a_drill(self):
        largest = "08" + "FF" * 9 + "01"
        self.assertEqual(trainer.drill(bytes.fromhex("08 00" + largest)), "total 0 calls 0 orders\n")
        tape = bytes.fromhex("08 64 01 00 48 09" + largest + "00 01 48 08 80 80 80 80 10")
        self.assertEqual(trainer.drill(tape), "store 0 72 9 orders 1\nload 1 72 9 orders 3\ntotal 2 calls 4 orders\n")
        self.assertEqual(trainer.drill(tape[:-1]), "store 0 72 9 orders 1\nload 1 72 9 orders 3\nrefused 5 at 21\n")

    def test_memory_writes_in_a_drill(self):
        # A memory write on the tape asks no call. The drill itself gives none: on copyback boards each unit's second store to a block has no order.
        tape = b"".join(bytes((3, unit, 4, unit, 1, 1, unit, 32 * unit, 9, 1, unit, 32 * unit, 9)) for unit in range(4))
        lines = [f"store {unit} {32 * unit} 9 orders {orders}\n" for unit in range(4) for orders in (1, 0)]
        self.assertEqual(trainer.drill(tape), "".join(lines) + "total 8 calls 4 orders\n")
        self.assertEqual(trainer.drill(bytes.fromhex("03 02 05 02 00")), "refused 8 at 2\n")

    def test_retried_orders_in_a_drill(self):
        # The drill's steal is off: a retried order is given again.
        text = "store 0 72 9 orders 1\nstore 1 72 10 orders 3\nload 2 72 10 orders 3\ntotal 3 calls 7 orders\n"
        self.assertEqual(trainer.drill(bytes.fromhex("01004809 0101480A 000248")), text)

    def test_drill(self):
        self.assertEqual(trainer.drill(b""), "total 0 calls 0 orders\n")
        self.assertEqual(trainer.drill(DRILL[:4]), "store 0 72 9 orders 1\ntotal 1 calls 1 orders\n")
        self.assertEqual(trainer.drill(bytes.fromhex("8080")), "refused 5 at 0\n")
        self.assertEqual(trainer.drill(bytes(65537)), "refused 9 at 65536\n")
        lines = trainer.drill(bytes.fromhex("01030001") * 16384).splitlines()
        self.assertEqual((len(lines), lines[0], lines[-1]), (16385, "store 3 0 1 orders 1", "total 16384 calls 1 orders"))


class Bus(Case):
    def test_values_of_document_01(self):
        self.assertEqual((trainer.parity(0), trainer.parity(1 << 56)), (255, 254))
        self.assertEqual(trainer.check(1, 255), (128, 1))
        self.refused(8, "field range", trainer.check, 0, 256)
        self.assertEqual([trainer.lanes(3, 6), trainer.lanes(0, 7), trainer.lanes(1, 7)], [(2, 0x03F8), (1, 0xFF), (2, 0x01FE)])
        self.refused(8, "field range", trainer.lanes, 0, 8)
        self.assertEqual(trainer.plan(1, 1), (True, False, False, False))
        self.assertEqual(trainer.plan(1, 1, locked=True), (True, False, False, True))
        self.assertEqual([trainer.plan(3, n)[:3] for n in (1, 2, 3)], [(True, True, True), (False, True, False), (False, False, False)])
        for n, cycle in ((0, 0), (65, 1), (3, 0), (3, 4)):
            self.refused(8, "field range", trainer.plan, n, cycle)

    def test_answer_codes(self):
        carrying = {63: ("RESERVED_NO_ERROR", 63), 64: ("USER_NO_ERROR", 0), 127: ("USER_NO_ERROR", 63), 191: ("RESERVED_ERROR", 191), 192: ("USER_ERROR", 0)}
        for code, (name, carried) in {**carrying, 1: ("NO_ERROR_LOCK", 0), 128: ("HARDWARE_ERROR", 0)}.items():
            found = trainer.classify(code)
            self.assertEqual((found.kind.name, found.carried, found.error), (name, carried, code >= 128))
        for code in range(256):
            self.assertEqual(trainer.answer_code(*trainer.classify(code)[:2]), code)
        self.refused(8, "field range", trainer.classify, 256)
        self.refused(8, "field range", trainer.answer_code, trainer.AnswerClass.RESERVED_ERROR, 130)
        self.refused(8, "field range", trainer.answer_code, 9)

    def test_handler(self):
        handler = trainer.Handler()
        self.assertEqual(handler.state, HandlerState(7, 7, None))
        self.assertEqual(handler.arbitrate(low=(0, 7)), Grant(0, False))
        locked = trainer.Handler(handler.state)
        self.assertEqual(handler.arbitrate(low=0x81), Grant(7, False))
        self.assertEqual(locked.arbitrate(low=(0, 7), lck=True), Grant(0, False))
        self.assertEqual(locked.state, HandlerState(7, 0, 0))
        self.assertEqual(locked.arbitrate(high=(5,), low=(7,), lck=True), Grant(5, True))
        self.assertIsNone(locked.arbitrate(low=(7,), lck=True))
        self.assertEqual(locked.state, HandlerState(5, 0, 0))
        self.refused(10, "bad state", locked.arbitrate, (8,))
        for state in (HandlerState(8, 0, None), HandlerState(0, 8, None), HandlerState(0, 0, 8)):
            self.refused(10, "bad state", trainer.Handler(state).arbitrate, (), (1,), True)


class Messages(Case):
    def test_a_message_comes_together_again(self):
        message = bytes(n % 253 for n in range(600))
        operations = trainer.divide(message, 7, 255)
        self.assertEqual([(o.sequence, len(o.data)) for o in operations], [(Sequence.FIRST, 256), (Sequence.MIDDLE, 256), (Sequence.LAST, 88)])
        receiver = trainer.Receiver()
        self.assertIsNone(receiver.receive(operations[0]))
        self.assertEqual(receiver.pending, (7, 255, message[:256]))
        self.refused(12, "out of turn", receiver.receive, operations[0])
        self.refused(11, "other source", receiver.receive, operations[1]._replace(aid=254))
        self.assertIsNone(receiver.receive(operations[1]))
        self.assertEqual(receiver.receive(operations[2]), (7, 255, message))
        self.assertIsNone(receiver.pending)
        self.assertEqual(receiver.receive(*trainer.divide(b"x", 0, 0)), (0, 0, b"x"))

    def test_refusals(self):
        self.refused(8, "field range", trainer.divide, b"", 0, 0)
        self.refused(8, "field range", trainer.divide, bytes(4097), 8, 0)
        self.refused(9, "no room", trainer.divide, bytes(4097), 7, 255)
        self.refused(8, "field range", trainer.Receiver().receive, trainer.Operation(Sequence.SINGLE, 0, 0, bytes(257)))
        self.refused(12, "out of turn", trainer.Receiver().receive, trainer.Operation(Sequence.LAST, 0, 0, b"x"))


class Interrupts(Case):
    def test_document_02s_example_both_ways(self):
        half = 0x0000A03E00000000
        self.assertEqual(trainer.write_interrupt(3, 28), (half, half))
        self.assertEqual(trainer.read_interrupt(half, half), (3, 28, Device.BRIDGE_0))
        for agent, device in enumerate([0] * 4 + [1, 1, 2, 2, 1, 1, 1, 1, 3, 3, 4, 4]):
            self.assertEqual(trainer.read_interrupt(*trainer.write_interrupt(31, agent)), (31, agent, Device(device)))
        self.refused(17, "halves differ", trainer.read_interrupt, half, half + 1)
        self.refused(7, "unknown kind", trainer.read_interrupt, 1, 1)
        self.refused(8, "field range", trainer.read_interrupt, half + 1, half + 1)
        self.refused(8, "field range", trainer.write_interrupt, 32, 0)


if __name__ == "__main__":
    unittest.main()
