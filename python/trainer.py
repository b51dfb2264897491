"""The trainer for Python, over the shared library that ./library writes. It needs nothing but Python's own library.

    >>> import trainer
    >>> machine = trainer.Machine()
    >>> machine.store(0, 72, 9).orders
    (Order(unit=0, command=<Command.MODIFIED_READ: 1>, block=2, retried=False),)
    >>> machine.load(1, 72).value
    9

A call that the library refuses raises `Refused` and changes nothing; of a list of accesses (`Machine.batch`) those before the refused one stay made. A
number that a parameter of the C interface cannot hold, such as a negative one, raises OverflowError.

The shared library is target/lib/libtrainer.so of this repository, unless the environment variable TRAINER_LIBRARY or `open_library` names another.
include/trainer.h describes the calls below this module; document 01, and document 02 as it adds to it, says what they mean.
"""
from __future__ import annotations

import ctypes
import enum
import os
from pathlib import Path
from typing import FrozenSet, Iterable, Iterator, List, NamedTuple, Optional, Tuple, Union

STORE = 2048  # bytes of the memory store, and of the cache store
BLOCK = 32  # bytes of a block
MESSAGE = 4096  # the most bytes of a message
_DIRECTORY, _ANSWER, _RECORD, _TEXT, _NO_OWNER = 194, 18, 7, 720_960, 8

# ---- Refusals


class Refusal(enum.IntEnum):
    """The numbers of refusal that these calls can give."""

    WRONG_SIZE = 1
    BROKEN_DIRECTORY = 2
    NO_UNIT = 3
    BAD_ADDRESS = 4
    CUT = 5
    BAD_NUMBER = 6
    UNKNOWN_KIND = 7
    FIELD_RANGE = 8
    NO_ROOM = 9
    BAD_STATE = 10
    OTHER_SOURCE = 11
    OUT_OF_TURN = 12
    HALVES_DIFFER = 17


class Refused(Exception):
    """A refused call: its number, the number's name, and, of a reading, the place where the refused number starts."""

    def __init__(self, number: int, place: Optional[int] = None) -> None:
        self.number: int = number
        self.name: str = Refusal(number).name.lower().replace("_", " ")
        self.place: Optional[int] = place
        super().__init__(f"refused {number} ({self.name})" + ("" if place is None else f" at {place}"))


class BatchRefused(Refused):
    """A refused list of accesses: its number and the number's name; how many accesses were made, which is the index of the refused one; and of those that
    were made the values, and how many orders they gave together."""

    def __init__(self, number: int, index: int, values: List[int], orders: int) -> None:
        super().__init__(number)
        self.index: int = index
        self.values: List[int] = values
        self.orders: int = orders

    def __str__(self) -> str:
        return f"{super().__str__()} at access {self.index}"


# ---- The shared library

_U8, _U32, _U64, _SIZE = ctypes.c_uint8, ctypes.c_uint32, ctypes.c_uint64, ctypes.c_size_t
_library: Optional[ctypes.CDLL] = None


def open_library(path: Union[str, os.PathLike, None] = None) -> None:
    """Opens the shared library at `path`, or at its usual place. Without this the first call opens it."""
    global _library
    usual = Path(__file__).resolve().parent.parent / "target" / "lib" / "libtrainer.so"
    _library = ctypes.CDLL(os.fspath(path or os.environ.get("TRAINER_LIBRARY") or usual))


class _Number(NamedTuple):
    """A number by value, with its type in C."""

    kind: type
    value: int


def _u32(value: int) -> _Number:
    return _Number(_U32, value)


def _u64(value: int) -> _Number:
    return _Number(_U64, value)


def _bytes(data: Union[bytes, bytearray]) -> ctypes.Array:
    return (_U8 * len(data)).from_buffer_copy(data)


def _call(name: str, *given: object) -> int:
    """Calls trainer_`name`. An array crosses as its address and length, a number with its type by value, any other ctypes object by its address."""
    if _library is None:
        open_library()
    arguments: List[object] = []
    for one in given:
        if isinstance(one, ctypes.Array):
            arguments += [one, _SIZE(len(one))]
        elif isinstance(one, _Number):
            if not 0 <= one.value < 1 << 8 * ctypes.sizeof(one.kind):
                raise OverflowError(f"{one.value} is no number of {8 * ctypes.sizeof(one.kind)} bits")
            arguments.append(one.kind(one.value))
        else:
            arguments.append(ctypes.byref(one))
    function = getattr(_library, "trainer_" + name)
    function.restype = _U32
    return function(*arguments)


def _do(name: str, *given: object) -> None:
    """Calls trainer_`name`, and raises `Refused` where it refuses."""
    number = _call(name, *given)
    if number != 0:
        raise Refused(number)


# ---- The cache machine


class Command(enum.IntEnum):
    """The command of an order. A memory write is the store of a write-through unit."""

    READ = 0
    MODIFIED_READ = 1
    INVALIDATE = 2
    COPYBACK = 3
    MEMORY_WRITE = 4


class State(enum.IntEnum):
    """The state of a slot. One of a write-through unit is never modified."""

    INVALID = 0
    SHARED = 1
    MODIFIED = 2


class Order(NamedTuple):
    """An order on the bus; on a tape, the record of kind 3."""

    unit: int
    command: Command
    block: int
    retried: bool


class Reply(NamedTuple):
    """The answer of a load, store or flush: the loaded value (0 for the others), and the orders in sequence."""

    value: int
    orders: Tuple[Order, ...]


class Batch(NamedTuple):
    """What a list of accesses gave: the loaded values, with 0 for stores and flushes, and how many orders the accesses gave together."""

    values: List[int]
    orders: int


class Holders(NamedTuple):
    """The units that hold a block, as a set in which unit u has weight 2^u, and how many they are."""

    set: int
    count: int


class Slot(NamedTuple):
    """A slot of the directory; an invalid one has block 0."""

    state: State
    block: int


def _boards(units: Iterable[int]) -> _Number:
    """The set of these units. One above 3 stands in it as unit 4, so that the library refuses it, however large it is."""
    chosen = set(units)
    for unit in chosen:
        if not 0 <= unit < 1 << 32:
            raise OverflowError(f"{unit} is no number of 32 bits")
    return _u32(sum(1 << unit for unit in {min(unit, 4) for unit in chosen}))


class Machine:
    """Four processors with their caches, started cold on a memory of 2,048 bytes. The units of `write_through` have write-through boards, the others
    copyback boards. With `steal` a read or modified read that is retried is not given again: the unit takes the block during the holder's copyback."""

    def __init__(self, memory: Union[bytes, bytearray] = bytes(STORE), write_through: Iterable[int] = (), steal: bool = False) -> None:
        self._memory = _bytes(memory)
        self._cache = (_U8 * STORE)()
        self._directory = (_U8 * _DIRECTORY)()
        _do("cold_start", self._memory, self._cache, _boards(write_through), _u32(int(steal)), self._directory)

    def _access(self, name: str, *numbers: int) -> Reply:
        answer = (_U32 * _ANSWER)()
        _do(name, self._directory, self._memory, self._cache, *map(_u32, numbers), answer)
        fours = (answer[2 + 4 * n : 6 + 4 * n] for n in range(answer[1]))
        return Reply(answer[0], tuple(Order(unit, Command(command), block, retried == 1) for unit, command, block, retried in fours))

    def load(self, unit: int, address: int) -> Reply:
        """Unit loads the word at address."""
        return self._access("load", unit, address)

    def store(self, unit: int, address: int, value: int) -> Reply:
        """Unit stores a 32-bit value at address: a copyback unit in its cache only, a write-through unit in memory and in the copy that it holds."""
        return self._access("store", unit, address, value)

    def flush(self, unit: int, block: int) -> Reply:
        """Unit gives up block."""
        return self._access("flush", unit, block)

    def batch(self, accesses: Iterable[Access]) -> Batch:
        """Makes up to 65,536 loads, stores and flushes in one call, as they would be made singly, up to the first that is refused. That one raises
        `BatchRefused`; those before it stay made."""
        numbers = [number for access in accesses for number in _access_numbers(access)]
        values, index, orders = (_U32 * (len(numbers) // 4))(), _U32(), _U32()
        refusal = _call("batch", self._directory, self._memory, self._cache, (_U32 * len(numbers))(*numbers), values, index, orders)
        made = values[: index.value]
        if refusal != 0:
            raise BatchRefused(refusal, index.value, made, orders.value)
        return Batch(made, orders.value)

    def peek(self, block: int) -> bytes:
        """The newest 32 bytes of block."""
        store, offset = _U32(), _U32()
        _do("peek", self._directory, self._memory, self._cache, _u32(block), store, offset)
        held = self._cache if store.value == 1 else self._memory
        return bytes(held[offset.value : offset.value + BLOCK])

    def holders(self, block: int) -> Holders:
        """The units that hold block."""
        units, count = _U32(), _U32()
        _do("holders", self._directory, _u32(block), units, count)
        return Holders(units.value, count.value)

    def slot(self, unit: int, slot: int) -> Slot:
        """Slot 0 to 15 of unit 0 to 3, as the directory has it."""
        if not (0 <= unit < 4 and 0 <= slot < 16):
            raise IndexError(f"no slot {slot} of unit {unit}")
        at = 2 * (16 * unit + slot)
        return Slot(State(self._directory[at]), self._directory[at + 1])

    @property
    def write_through(self) -> FrozenSet[int]:
        """The units that have write-through boards, as the directory has them."""
        return frozenset(unit for unit in range(4) if self._directory[128] >> unit & 1)

    @property
    def steal(self) -> bool:
        """Whether steal is on, as the directory has it."""
        return self._directory[129] == 1

    @property
    def memory(self) -> bytes:
        """The bytes of the memory store."""
        return bytes(self._memory)

    @property
    def cache(self) -> bytes:
        """The bytes of the cache store: slot s of unit u at 512 u + 32 s."""
        return bytes(self._cache)


# ---- The tape


class Load(NamedTuple):
    """Kind 0."""

    unit: int
    address: int


class Store(NamedTuple):
    """Kind 1."""

    unit: int
    address: int
    value: int


class Flush(NamedTuple):
    """Kind 2."""

    unit: int
    block: int


class Answer(NamedTuple):
    """Kind 4. The paper's `from` is a word of Python's own."""

    from_: int
    to: int
    aid: int
    code: int


class Register(NamedTuple):
    """Kind 5."""

    from_: int
    to: int
    aid: int
    write: bool
    ra: int
    bct: int


class Loaded(NamedTuple):
    """Kind 6."""

    unit: int
    value: int


class Stamp(NamedTuple):
    """Kind 8: a count of cycles, any 64-bit number."""

    cycles: int


Record = Union[Load, Store, Flush, Order, Answer, Register, Loaded, Stamp]
Access = Union[Load, Store, Flush]  # what `Machine.batch` makes
KINDS = (Load, Store, Flush, Order, Answer, Register, Loaded, None, Stamp)  # each at its number on the tape; there is no kind 7


class Reading(NamedTuple):
    """A record that was read, and the place after it."""

    record: Record
    next: int


def read_record(tape: Union[bytes, bytearray], place: int = 0) -> Optional[Reading]:
    """The record at a place of the tape; None at its end."""
    return _read(_bytes(tape), place)


def _read(tape: ctypes.Array, place: int) -> Optional[Reading]:
    following, numbers = _SIZE(), (_U64 * _RECORD)()
    number = _call("read_record", tape, _Number(_SIZE, place), following, numbers)
    if number != 0:
        raise Refused(number, following.value)
    if following.value == place:
        return None
    kind = KINDS[numbers[0]]
    fields = list(numbers[1 : 1 + len(kind._fields)])
    if kind is Order:
        fields[1], fields[3] = Command(fields[1]), fields[3] == 1
    if kind is Register:
        fields[3] = fields[3] == 1
    return Reading(kind(*fields), following.value)


def read_tape(tape: Union[bytes, bytearray], place: int = 0) -> Iterator[Record]:
    """The records of a tape from a place to its end. A refusal ends it, with the place where the refused number starts."""
    whole = _bytes(tape)
    reading = _read(whole, place)
    while reading is not None:
        yield reading.record
        reading = _read(whole, reading.next)


def _numbers(record: Record) -> ctypes.Array:
    """The kind of a record and its fields, with 0 behind them."""
    numbers = [KINDS.index(type(record)), *map(int, record)]
    for number in numbers:
        if not 0 <= number < 1 << 64:
            raise OverflowError(f"{number} is no number of 64 bits")
    return (_U64 * _RECORD)(*numbers)


def _access_numbers(access: Access) -> List[int]:
    """The four numbers of an access: its kind and its fields, with 0 behind them. Of any other record the kind alone, so that the library refuses it."""
    kind = KINDS.index(type(access))
    numbers = [kind, *(access if kind <= 2 else ())]
    for number in numbers:
        if not 0 <= number < 1 << 32:
            raise OverflowError(f"{number} is no number of 32 bits")
    return numbers + [0] * (4 - len(numbers))


def record_size(record: Record) -> int:
    """How many bytes a record takes on the tape, which is the least room that `write_record` accepts for it."""
    size = _SIZE()
    _do("record_size", _numbers(record), size)
    return size.value


def write_record(record: Record, room: Optional[int] = None) -> bytes:
    """The bytes of a record, which must fit into so much room; without a given room it has exactly the room that it needs."""
    space, written = (_U8 * (record_size(record) if room is None else room))(), _SIZE()
    _do("write_record", _numbers(record), space, written)
    return bytes(space[: written.value])


def write_tape(records: Iterable[Record]) -> bytes:
    """The tape of these records, one after the other."""
    return b"".join(write_record(record) for record in records)


def drill(tape: Union[bytes, bytearray]) -> str:
    """What the drill program prints for a tape."""
    text, written = (_U8 * _TEXT)(), _SIZE()
    _do("drill", _bytes(tape), text, written)
    return bytes(memoryview(text)[: written.value]).decode("ascii")


# ---- The bus


class Checked(NamedTuple):
    """The set of wrong bytes, byte 0 having weight 1, and how many they are."""

    wrong: int
    count: int


class Lanes(NamedTuple):
    """The words of a register access, and its valid positions as a set of 16 bits."""

    words: int
    positions: int


class Levels(NamedTuple):
    """The levels in one cycle of a transfer, and that of ET at the request; True is asserted."""

    bs: bool
    bur: bool
    et: bool
    et_at_request: bool


class AnswerClass(enum.IntEnum):
    """The classes of an answer code."""

    NO_ERROR = 0
    NO_ERROR_LOCK = 1
    RESERVED_NO_ERROR = 2
    USER_NO_ERROR = 3
    HARDWARE_ERROR = 4
    ILLEGAL_COMMAND = 5
    BUS_SEQUENCE_ERROR = 6
    RESERVED_ERROR = 7
    USER_ERROR = 8


class Classified(NamedTuple):
    """The class of an answer code, the number that it carries (0 for none), and whether the asker reports a bus error."""

    kind: AnswerClass
    carried: int
    error: bool


def parity(word: int) -> int:
    """The eight parity bits of a 64-bit word: byte 0, the most significant, has weight 1."""
    return _call("parity", _u64(word))


def check(word: int, bits: int) -> Checked:
    """The bytes of a word that are wrong beside a set of eight parity bits."""
    wrong, count = _U32(), _U32()
    _do("check", _u64(word), _u32(bits), wrong, count)
    return Checked(wrong.value, count.value)


def lanes(ra: int, bct: int) -> Lanes:
    """The byte lanes of a register access."""
    words, positions = _U32(), _U32()
    _do("lanes", _u32(ra), _u32(bct), words, positions)
    return Lanes(words.value, positions.value)


def plan(cycles: int, cycle: int, locked: bool = False) -> Levels:
    """The levels in a cycle, from 1 on, of a transfer of so many cycles."""
    levels = [_U32() for _ in range(4)]
    _do("plan", _u32(cycles), _u32(cycle), _u32(int(locked)), *levels)
    return Levels(*(level.value == 1 for level in levels))


def classify(code: int) -> Classified:
    """The class of an answer code."""
    kind, carried, error = _U32(), _U32(), _U32()
    _do("class", _u32(code), kind, carried, error)
    return Classified(AnswerClass(kind.value), carried.value, error.value == 1)


def answer_code(kind: int, carried: int = 0) -> int:
    """The code of a class with the number that it carries."""
    code = _U32()
    _do("code", _u32(kind), _u32(carried), code)
    return code.value


# ---- The bus handler


class Grant(NamedTuple):
    """The unit that was granted, and whether by RQH (else by RQL)."""

    unit: int
    high: bool


class HandlerState(NamedTuple):
    """The last high unit, the last low unit, and the lock's owner, None for no lock."""

    last_high: int
    last_low: int
    owner: Optional[int]


Units = Union[int, Iterable[int]]


def _units(units: Units) -> _Number:
    return _u32(units if isinstance(units, int) else sum(1 << unit for unit in set(units)))


class Handler:
    """The bus handler: fresh, or in a given state."""

    def __init__(self, state: Optional[HandlerState] = None) -> None:
        self._state = (_U32 * 3)()
        _do("handler", self._state)
        if state is not None:
            # 8 stands for no owner below, so that a given owner of 8 becomes another number above 7, which is refused just so.
            owner = _NO_OWNER if state.owner is None else 9 if state.owner == _NO_OWNER else state.owner
            for place, number in enumerate((state.last_high, state.last_low, owner)):
                if not 0 <= number < 1 << 32:
                    raise OverflowError(f"{number} is no number of 32 bits")
                self._state[place] = number

    @property
    def state(self) -> HandlerState:
        """The state for the next call."""
        high, low, owner = self._state
        return HandlerState(high, low, None if owner == _NO_OWNER else owner)

    def arbitrate(self, high: Units = (), low: Units = (), lck: bool = False) -> Optional[Grant]:
        """One call: the units that ask by RQH and by RQL, each as its members or as a set in which unit u has weight 2^u, and whether LCK is asserted."""
        grant, unit = _U32(), _U32()
        _do("arbitrate", self._state, _units(high), _units(low), _u32(int(lck)), grant, unit)
        return Grant(unit.value, grant.value == 1) if grant.value else None


# ---- Messages between boards


class Sequence(enum.IntEnum):
    """Where in its message an operation stands."""

    SINGLE = 0
    FIRST = 1
    MIDDLE = 2
    LAST = 3


class Operation(NamedTuple):
    """One operation of a message: 1 to 256 bytes."""

    sequence: int
    sender: int
    aid: int
    data: bytes


class Message(NamedTuple):
    """A complete message: 1 to 4,096 bytes."""

    sender: int
    aid: int
    data: bytes


def divide(message: Union[bytes, bytearray], sender: int, aid: int) -> List[Operation]:
    """The operations of a message, in the order in which they are sent."""
    whole, count = _bytes(message), _SIZE()
    _do("divide", whole, _u32(sender), _u32(aid), count)
    operations = []
    for index in range(count.value):
        sequence, offset, length = _U32(), _SIZE(), _SIZE()
        _do("operation", whole, _u32(sender), _u32(aid), _Number(_SIZE, index), sequence, offset, length)
        part = bytes(message[offset.value : offset.value + length.value])
        operations.append(Operation(Sequence(sequence.value), sender, aid, part))
    return operations


class Receiver:
    """Puts the operations of messages together; idle at first."""

    def __init__(self) -> None:
        self._numbers = (_U64 * 4)()
        self._store = (_U8 * MESSAGE)()

    @property
    def pending(self) -> Optional[Message]:
        """The message that is being received, with the bytes that have come; None where the receiver is idle."""
        waiting, sender, aid, count = self._numbers
        return Message(sender, aid, bytes(self._store[:count])) if waiting else None

    def receive(self, operation: Operation) -> Optional[Message]:
        """Takes an operation, and gives the message that it completes, if it does."""
        completion = (_U64 * 4)()
        parties = (_u32(operation.sequence), _u32(operation.sender), _u32(operation.aid))
        _do("receive", self._numbers, self._store, *parties, _bytes(operation.data), completion)
        complete, sender, aid, length = completion
        return Message(sender, aid, bytes(self._store[:length])) if complete else None


# ---- Interrupts on the neighbour bench's J-Bus


class Device(enum.IntEnum):
    """What an agent ID's low four bits name."""

    PROCESSOR = 0
    NOT_SUPPORTED = 1
    ILLEGAL = 2
    BRIDGE_0 = 3
    BRIDGE_1 = 4


class Interrupt(NamedTuple):
    """The target thread, the source's agent ID, and the device of that agent."""

    target: int
    agent: int
    device: Device


class AddressCycle(NamedTuple):
    """J_AD[127:64] and J_AD[63:0]."""

    upper: int
    lower: int


def read_interrupt(upper: int, lower: int) -> Interrupt:
    """The interrupt of an address cycle."""
    target, agent, device = _U32(), _U32(), _U32()
    _do("read_interrupt", _u64(upper), _u64(lower), target, agent, device)
    return Interrupt(target.value, agent.value, Device(device.value))


def write_interrupt(target: int, agent: int) -> AddressCycle:
    """The address cycle of an interrupt to a target thread from an agent."""
    upper, lower = _U64(), _U64()
    _do("write_interrupt", _u32(target), _u32(agent), upper, lower)
    return AddressCycle(upper.value, lower.value)
