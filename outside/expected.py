"""What the program `vectors` must print for the rows of its file `stdin`, from documents 01 and 02 alone: python3 outside/expected.py < crates/vectors/stdin

A line that begins with a quotation mark is a heading. The first letter of any other chooses the call, and its numbers are the inputs: hexadecimal where the
row is of parities or of bytes, else decimal.
"""
import functools
import re
import sys

UNTOUCHED = 0xEE


def parity(word, bits):
    """Odd: a byte and its parity bit together hold an odd count of ones; byte 0 is the most significant and has weight 1."""
    ones = [bin(byte).count("1") for byte in word.to_bytes(8, "big")]
    own = sum(2**n for n in range(8) if ones[n] % 2 == 0)
    wrong = [n for n in range(8) if (ones[n] + (bits >> n & 1)) % 2 == 0]
    return [8, own, 0, 0] if bits > 255 else [0, own, sum(2**n for n in wrong), len(wrong)]


def lanes(ra, bct):
    """BCT + 1 bytes, from position RA mod 8 of the first 8-byte word onward."""
    if bct > 7:
        return [8, 0, 0]
    positions = [ra % 8 + n for n in range(bct + 1)]
    return [0, len({position // 8 for position in positions}), sum(2**position for position in positions)]


def transfer(n, cycle, locked):
    """BS in cycle 1 only; BUR in cycles 1 to n - 1; ET in cycles 1 to n - 2; ET at the request for n of 2 or more or a locked transfer (T-02)."""
    if n not in range(1, 65) or cycle not in range(1, n + 1) or locked > 1:
        return [8, 0, 0, 0, 0]
    return [0] + [int(level) for level in (cycle == 1, cycle in range(1, n), cycle in range(1, n - 1), n >= 2 or locked)]


CLASSES = [(0, 0, None), (1, 1, None), (2, 63, 0), (64, 127, 64), (128, 128, None), (129, 129, None), (130, 130, None), (131, 191, 0), (192, 255, 192)]


def answer(code):
    """The class of a code by the table's rows, what it carries, and whether it is reported: exactly for 128 and above."""
    for number, (first, last, less) in enumerate(CLASSES):
        if first <= code <= last:
            return [0, number, 0 if less is None else code - less, int(code >= 128)]
    return [8, 0, 0, 0]


def class_(number, carried):
    """The code of a class: the one whose class this is."""
    codes = [code for code in range(256) if answer(code)[1:3] == [number, carried]]
    return [0, codes[0]] if codes else [8, 0]


def handler(high=None, low=None, owner=None, rqh=None, rql=None, lck=None):
    """Owner 8 is none. The refusal, the grant, the unit, and the state."""
    if high is None:
        return [0, 7, 7, 8]
    if lck > 1:
        return [8, 0, 0, high, low, owner]
    if rqh > 255 or rql > 255 or high > 7 or low > 7 or owner > 8:
        return [10, 0, 0, high, low, owner]
    owner = 8 if not lck else low if owner == 8 else owner

    def first(units, last):
        return next((unit for unit in ((last + n) % 8 for n in range(1, 9)) if units >> unit & 1), None)

    unit = first(rqh, high)
    if unit is not None:
        return [0, 1, unit, unit, low, owner]
    unit = first(rql, low) if owner == 8 else owner if rql >> owner & 1 else None
    return [0, 0, 0, high, low, owner] if unit is None else [0, 2, unit, high, unit, owner]


class Bad(Exception):
    """A refused number of a tape: its number and its place."""


def number_at(tape, place):
    """A number is groups of seven bits, low group first, high bit set on all but the last; the shortest spelling; ten groups, the tenth at most 1 (T-04)."""
    value = 0
    for group in range(10):
        if place + group >= len(tape):
            raise Bad(5, place)
        byte = tape[place + group]
        if group == 9 and byte > 1 or group > 0 and byte == 0:
            raise Bad(6, place)
        value += byte % 128 * 128**group
        if byte < 128:
            return value, place + group + 1


FIELDS = {
    0: ["unit", "address"],
    1: ["unit", "address", "word"],
    2: ["unit", "block"],
    3: ["unit", "command", "block", "retried"],
    4: ["from", "to", "byte", "byte"],
    5: ["from", "to", "byte", "flag", "word", "bct"],
    6: ["unit", "word"],
    8: ["cycles"],
}
MOST = {"unit": 3, "address": 2044, "block": 63, "command": 4, "retried": 1, "from": 7, "to": 7, "byte": 255, "flag": 1, "bct": 7, "word": 2**32 - 1, "cycles": 2**64 - 1}


def keeps(kind, fields):
    """Whether the last of these fields of a record keeps its range and rule. Order records take command 4, retried 0 or 1 (T-05)."""
    name, n = FIELDS[kind][len(fields) - 1], fields[-1]
    most = MOST[name]
    bent = name == "address" and n % 4 or name == "retried" and n and fields[1] in (2, 3) or name == "to" and n == fields[0]
    return n <= most and not bent


def record_at(tape, place):
    """The record at a place: its kind and fields, and the place after it."""
    kind, at = number_at(tape, place)
    if kind not in FIELDS:
        raise Bad(7, place)
    fields = []
    for _ in FIELDS[kind]:
        field, after = number_at(tape, at)
        fields.append(field)
        if not keeps(kind, fields):
            raise Bad(8, at)
        at = after
    return [kind] + fields, at


def reading(place, *tape):
    if place == len(tape):
        return [0, place] + [0] * 7
    try:
        numbers, after = record_at(tape, place)
    except Bad as bad:
        return [*bad.args] + [0] * 7
    return [0, after] + (numbers + [0] * 7)[:7]


def spelled(n):
    return [n] if n < 128 else [n % 128 + 128] + spelled(n // 128)


def groups(n):
    """The fewest groups of seven bits that hold a number; one for zero (T-06)."""
    return next(count for count in range(1, 11) if n < 2 ** (7 * count))


def writing(room, *numbers):
    """Tests 8, then 9; fills the first bytes, answers how many, and the rest stays. Kind 7 and kinds from 9 up are 7 (T-04). Before that the refusal and the size
    of the same record, whatever the room (T-06)."""
    kind, *fields = list(numbers) + [0] * (7 - len(numbers))
    space = [UNTOUCHED] * room
    if kind not in FIELDS:
        return [7, 0, 7, 0], space
    fields = fields[: len(FIELDS[kind])]
    if not all(keeps(kind, fields[: n + 1]) for n in range(len(fields))):
        return [8, 0, 8, 0], space
    size = [0, sum(map(groups, [kind] + fields))]
    written = sum(map(spelled, [kind] + fields), [])
    if len(written) > room:
        return size + [9, 0], space
    return size + [0, len(written)], written + space[len(written) :]


READ, MODIFIED_READ, INVALIDATE, COPYBACK, MEMORY_WRITE = range(5)
I, SU, EM = range(3)


class Machine:
    def __init__(self, slots, memory, cache, write_through=0, steal=0, *sets):
        """Slots are a map from (unit, slot) to [state, block]; write_through is the set of the write-through units, unit 0 having weight 1 (T-05); steal is 1
        where it is on (T-13); sets are what is kept for each block as the set of its holders (T-08), all empty where none is given."""
        self.slots = {**{(u, s): [I, 0] for u in range(4) for s in range(16)}, **slots}
        self.memory, self.cache, self.orders, self.write_through, self.steal = memory, cache, [], write_through, steal
        self.sets = list(sets) or [0] * 64

    def writes_through(self, unit):
        return self.write_through // 2**unit % 2 == 1

    def broken(self):
        def rule(u, s):
            state, block = self.slots[u, s]
            if state == I:
                return block == 0
            alone = state == SU or all(self.slots[v, t][1] != block or self.slots[v, t][0] == I for v, t in self.slots if v != u)
            kept = state <= (SU if self.writes_through(u) else EM)
            return kept and block <= 63 and block % 16 == s and alone

        return self.write_through > 15 or self.steal > 1 or not all(rule(u, s) for u, s in self.slots) or self.sets != self.true_sets()

    def holders(self, block):
        """The units holding a block: those of which one of the valid slots has it."""
        return {u for (u, _), (state, own) in self.slots.items() if state != I and own == block}

    def true_sets(self):
        """For each of the 64 blocks the set of units holding it, unit 0 having weight 1, unit 3 weight 8 (T-08)."""
        return [sum((1, 2, 4, 8)[u] for u in self.holders(block)) for block in range(64)]

    def directory(self):
        return sum((list(self.slots[n // 16, n % 16]) for n in range(64)), []) + [self.write_through, self.steal] + self.sets

    def refusal(self, tests, unit, address, block):
        faults = {
            1: len(self.memory) != 2048 or len(self.cache) != 2048,
            2: self.broken(),
            3: unit > 3,
            4: block > 63 if address is None else address % 4 != 0 or address > 2044,
        }
        return next((number for number in tests if faults[number]), 0)

    def order(self, unit, command, block, retried=0):
        self.orders.append([unit, command, block, retried])
        if command == COPYBACK:
            at = 512 * unit + 32 * (block % 16)
            self.memory[32 * block : 32 * block + 32] = self.cache[at : at + 32]

    def held(self, unit, block):
        state, own = self.slots[unit, block % 16]
        return state if state != I and own == block else None

    def others(self, unit, block):
        return [v for v in range(4) if v != unit and self.held(v, block)]

    def ask(self, unit, block, command):
        """The order, and where another unit holds the block EM: retried, that unit's copyback, and the order again. With steal on a read or modified read is not
        given again: what the copyback leaves in memory is what the asker takes as it passes (T-13)."""
        holder = [v for v in self.others(unit, block) if self.held(v, block) == EM]
        self.order(unit, command, block, len(holder))
        if holder:
            self.order(holder[0], COPYBACK, block)
            self.slots[holder[0], block % 16] = [SU, block]
            if not self.steal or command == MEMORY_WRITE:
                self.order(unit, command, block)

    def fetch(self, unit, block, command):
        slot = unit, block % 16
        if self.slots[slot][0] == EM:
            self.order(unit, COPYBACK, self.slots[slot][1])
        self.slots[slot] = [I, 0]
        self.ask(unit, block, command)
        at = 512 * unit + 32 * (block % 16)
        self.cache[at : at + 32] = self.memory[32 * block : 32 * block + 32]
        self.slots[slot] = [SU, block]

    def load(self, unit, address):
        block = address // 32
        if not self.held(unit, block):
            self.fetch(unit, block, READ)
        at = 512 * unit + 32 * (block % 16) + address % 32
        return int.from_bytes(bytes(self.cache[at : at + 4]), "big")

    def store(self, unit, address, value):
        block = address // 32
        word = value.to_bytes(4, "big")
        if self.writes_through(unit):
            self.memory_write(unit, address, word)
            return 0
        if not self.held(unit, block):
            self.fetch(unit, block, MODIFIED_READ)
        elif self.held(unit, block) == SU:
            self.order(unit, INVALIDATE, block)
        for v in self.others(unit, block):
            self.slots[v, block % 16] = [I, 0]
        self.slots[unit, block % 16] = [EM, block]
        self.put(unit, address, word)
        return 0

    def memory_write(self, unit, address, word):
        """Memory and the unit's own held copy take the word; all other holders become I (T-05)."""
        block = address // 32
        self.ask(unit, block, MEMORY_WRITE)
        self.memory[address : address + 4] = word
        if self.held(unit, block):
            self.put(unit, address, word)
        for v in self.others(unit, block):
            self.slots[v, block % 16] = [I, 0]

    def put(self, unit, address, word):
        at = 512 * unit + 32 * (address // 32 % 16) + address % 32
        self.cache[at : at + 4] = word

    def flush(self, unit, block):
        if self.held(unit, block) == EM:
            self.order(unit, COPYBACK, block)
        if self.held(unit, block):
            self.slots[unit, block % 16] = [I, 0]
        return 0


def filled(base, size):
    return [base + place // 32 for place in range(size)]


def changes(before, after):
    """Runs of equal bytes that are not what stood there: place and byte at the start of each, and the place where such bytes end."""
    text, last = "", None
    for place, (old, new) in enumerate(zip(before, after)):
        now = None if old == new else new
        if now != last:
            text += f" to {place}" if now is None else f" at {place}: {now:02x}"
        last = now
    return text


def machine_from(directory, memory, cache):
    """A machine whose directory has these bytes: slot n = 16 u + s has its state at 2 n and its block behind it, the set of the write-through units stands at 128,
    steal at 129, the set of the units that hold block b at 130 + b."""
    slots = {(n // 16, n % 16): list(directory[2 * n : 2 * n + 2]) for n in range(64)}
    return Machine(slots, list(memory), list(cache), *directory[128:])


def machine_of(memory_size, cache_size, pairs):
    """A machine whose directory has these bytes, place and byte of each."""
    directory = [0] * 194
    for place, byte in zip(pairs[::2], pairs[1::2]):
        directory[place] = byte
    return machine_from(directory, filled(0, memory_size), filled(128, cache_size))


def lent(m):
    """The bytes of directory, memory and cache store."""
    return bytes(m.directory()), bytes(m.memory), bytes(m.cache)


def lent_changes(directory, memory, cache):
    spaces = [([0] * 194, directory), (filled(0, len(memory)), memory), (filled(128, len(cache)), cache)]
    return "".join(";" + changes(before, after) for before, after in spaces)


@functools.lru_cache(maxsize=None)
def access(kind, unit, target, value, *before):
    """0 load, 1 store, 2 flush, on the bytes of directory, memory and cache store: the refusal, the value, the orders, and the bytes after it. Each call keeps the sets
    true (T-08). A long list meets the same bytes again and again, so answers are kept."""
    m = machine_from(*before)
    refusal = m.refusal([1, 2, 3, 4], unit, None if kind == 2 else target, target)
    if refusal:
        return refusal, 0, [], before
    given = [lambda: m.load(unit, target), lambda: m.store(unit, target, value), lambda: m.flush(unit, target)][kind]()
    m.sets = m.true_sets()
    return 0, given, m.orders, lent(m)


def machine(memory_size, cache_size, target, kind, unit, value, *pairs):
    refusal, given, orders, left = access(kind, unit, target, value, *lent(machine_of(memory_size, cache_size, pairs)))
    numbers = [given, len(orders)] + sum(orders, [])
    return [refusal] + (numbers + [0] * 18)[:18], lent_changes(*left)


def batch(memory_size, cache_size, room, before, repeated, pairs, *rest):
    """A list of accesses, four numbers each, in one call (T-03): the row's, and before them its first `repeated` ones again and again. Refusal, index, total orders, the
    sum of the value places, and these, of more than 16 the first and the last eight. 9 comes first, then 8 for numbers that are no whole accesses; then access by
    access 7 for a kind above 2, or what the access made singly gives on what those before it left."""
    row = rest[2 * pairs :]
    numbers = [row[n % (4 * repeated)] for n in range(4 * before)] + list(row)
    accesses = list(zip(*[iter(numbers)] * 4))
    refusal = 9 if len(accesses) > min(65536, room) else 8 if len(numbers) % 4 else 0
    left, values, made, total = lent(machine_of(memory_size, cache_size, rest[: 2 * pairs])), [UNTOUCHED] * room, 0, 0
    for kind, *fields in [] if refusal else accesses:
        refusal, given, orders, left = (7, 0, [], left) if kind > 2 else access(kind, *fields, *left)
        if refusal:
            break
        values[made] = given
        made, total = made + 1, total + len(orders)
    shown = values if room <= 16 else values[:8] + values[-8:]
    return [refusal, made, total, sum(values)] + shown, lent_changes(*left)


def newest(memory_size, cache_size, block, *rest):
    """The store (0 memory, 1 cache store) and the place in it of the newest bytes of a block."""
    m = machine_of(memory_size, cache_size, rest[3:])
    refusal = m.refusal([1, 2, 4], 0, None, block)
    if refusal:
        return [refusal, 0, 0]
    owners = [u for u in range(4) if m.held(u, block) == EM]
    return [0, 1, 512 * owners[0] + 32 * (block % 16)] if owners else [0, 0, 32 * block]


def units(_, __, block, *rest):
    """The set of the units that hold a block, and how many they are: tests 2, then 4 (T-08)."""
    m = machine_of(2048, 2048, rest[3:])
    refusal = m.refusal([2, 4], 0, None, block)
    return [refusal, 0, 0] if refusal else [0, m.sets[block], len(m.holders(block))]


def start(memory_size, cache_size, write_through=0, steal=0, *rest):
    """A cold start tests 1; refused, its directory is all invalid and holds the chosen kinds too (T-05), and the chosen steal, which is kept like them (T-13);
    all sets are empty (T-08). Before that a set that names a unit above 3 is refused with 3, and then steal that is neither on nor off with 8; these two change
    nothing."""
    m = machine_of(memory_size, cache_size, rest[2:])
    refusal, directory, cache = 3 if write_through > 15 else 8 if steal > 1 else 0, m.directory(), m.cache
    if not refusal:
        refusal, directory = m.refusal([1], 0, 0, 0), [0] * 128 + [write_through, steal] + [0] * 64
        cache = m.cache if refusal else [0] * 2048
    return [refusal], ";" + changes([0] * 194, directory) + ";" + changes(filled(128, cache_size), cache)


def drill(room, *tape):
    m, place, lines, calls = Machine({}, [0] * 2048, [0] * 2048), 0, [], 0
    try:
        while place < len(tape):
            (kind, *fields), place = record_at(tape, place)
            m.orders = []
            if kind > 2:
                continue
            value = [m.load, m.store, m.flush][kind](*fields)
            shown = fields + [value] if kind == 0 else fields
            lines.append((" ".join([["load", "store", "flush"][kind], *map(str, shown)]), len(m.orders)))
            calls += 1
        last = f"total {calls} calls {sum(count for _, count in lines)} orders\n"
    except Bad as bad:
        last = "refused %d at %d\n" % bad.args
    text = "".join(f"{line} orders {count}\n" for line, count in lines) + last
    return ([0, len(text)], "\n" + text) if len(text) <= room else ([9, 0], "\n")


CALLS = {"p": parity, "l": lanes, "t": transfer, "a": answer, "c": class_, "h": handler, "r": reading, "w": writing, "m": machine, "b": batch, "n": newest, "u": units, "s": start, "d": drill}

for row in sys.stdin.read().splitlines():
    if row == "" or row[0] == '"':
        print(row)
        continue
    base = 16 if row[0] in "prd" else 10
    given = CALLS[row[0]](*(int(n, base) for n in re.findall("[0-9A-F]+" if base == 16 else "[0-9]+", row)))
    numbers, rest = given if isinstance(given, tuple) else (given, "")
    if isinstance(rest, list):
        rest = "".join(f" {byte:02x}" for byte in rest)
    print(row + ":" + "".join(f" {n}" for n in numbers) + rest)
