"""Moonhalyard for Python: a proved order engine.

    import moonhalyard

    plan = moonhalyard.text(open("order.txt").read())
    with moonhalyard.kept("day.state", plan) as state:    # locked, read back, and saved where nothing was raised
        state.post(0, 0, 7, 9)
        while state.offers().many:
            print(state.step(0))

What a call refuses is raised as `Refused`, with its number, its place and its words. docs/EMBEDDING.md tells what the calls mean and what a host must do
to last. The shared library is looked for in the variable MOONHALYARD_LIBRARY, beside this file's installation (../../../lib), and where the system looks.
"""

import contextlib
import ctypes
import fcntl
import os
import tempfile
from typing import Dict, Iterator, List, NamedTuple, Optional, Sequence, Tuple, Union

__all__ = [
    "Refused", "NoState", "Step", "Offers", "Message", "Tally", "Order", "Ran", "State",
    "version", "says", "text", "draw", "accept", "show", "write", "rows", "mend", "kept",
]

# layout: written by tools/layout from data/layout.txt
MARK = b"MOONHAL4"
TALLY_STARTED = 8
TALLY_WELL = 12
TALLY_HANDLED = 16
TALLY_FAILED = 20
TALLY_LEFT = 24
PLAN_LENGTH = 28
PLAN = 36
WAITING = 4132
MESSAGES = 4140
MESSAGES_MOST = 64
ORDERS = 6188
ORDERS_MOST = 16
STATE = 12748
MESSAGE_PARTNER = 0
MESSAGE_OPERATION = 4
MESSAGE_COUNT = 8
MESSAGE_VALUES = 12
MESSAGE_VALUES_MOST = 4
MESSAGE_REPLY = 28
MESSAGE = 32
ORDER_ROOT = 0
ORDER_MARKS = 1
ORDER_MARKS_MOST = 256
ORDER_VALUES = 257
ORDER_VALUES_MOST = 16
ORDER_BOUND = 321
ORDER_BOUND_MOST = 16
ORDER_REMEMBERED = 337
ORDER_REMEMBERED_MOST = 32
ORDER_KEPT = 401
ORDER_CAUSE = 409
ORDER = 410
CLOSING_SCOPE = 0
CLOSING_PART = 1
CLOSING = 2
# layout end
ROW = 20
ENDS = ("none", "well", "handled", "failed", "left")
FAULTS = ("plain", "unbound", "sum", "difference", "conflict", "partner")
VERSION = 10000


def _library() -> ctypes.CDLL:
    here = os.path.dirname(os.path.abspath(__file__))
    beside = os.path.join(here, "..", "..", "..", "lib", "libmoonhalyard.so.1")
    name = os.environ.get("MOONHALYARD_LIBRARY") or (beside if os.path.exists(beside) else "libmoonhalyard.so.1")
    # A PyDLL keeps the interpreter's lock during a call, so that no other thread of Python can touch a state meanwhile.
    library = ctypes.PyDLL(name)
    u8, u32, u64, size = ctypes.c_void_p, ctypes.c_uint32, ctypes.c_uint64, ctypes.c_size_t
    for name, answer, *asked in (
        ("version", u32),
        ("says", ctypes.c_char_p, u32),
        ("accept", u64, u8, size),
        ("show", u64, u8, size, u32),
        ("load", u64, u8, size, u8, size),
        ("upgrade", u32, u8, size, u8, size),
        ("seal", u64, u8, size),
        ("post", u32, u8, size, u32, u32, u32, u32, u32, u32, u32, u32),
        ("collect", u32, u8, size, u8, size),
        ("drop", u32, u8, size, size, u8, size),
        ("offer", u64, u8, size, u64),
        ("offers", u64, u8, size),
        ("list", u64, u8, size, u32, u8, size),
        ("step", u64, u8, size, u64),
        ("run", u32, u8, size, u8, size, u8),
        ("tell", u32, u8, size, u8, size, u8, u8, size),
        ("text", u64, u8, size, u8, size),
        ("draw", u64, u8, size, u8, size),
        ("write", u64, u8, size, u8, size),
        ("rows", u64, u8, size, u8, size),
        ("mend", u64, u8, size, u8, size),
    ):
        function = getattr(library, "moonhalyard_" + name)
        function.restype = answer
        function.argtypes = asked
    if library.moonhalyard_version() // 10000 != VERSION // 10000:
        raise ImportError("libmoonhalyard has version %d, this module is for %d" % (library.moonhalyard_version(), VERSION))
    return library


_c = _library()


class Refused(Exception):
    """What a call refuses: its number, the place (or row, or line) in trouble where it has one, and its words."""

    def __init__(self, number: int, place: int = 0):
        self.number = number
        self.place = place
        super().__init__("%d: %s" % (number, says(number)))


class NoState(Refused):
    """Bytes that hold no state of any version."""


class Step(NamedTuple):
    """A step: its order's slot, its activity, the place of the message that it takes, the order's end (one of ENDS), and the number of the fault that it ended handled
    or failed by (0 to 5: FAULTS), 0 where it did not."""

    slot: int
    activity: int
    place: int
    end: str
    fault: int = 0


class Offers(NamedTuple):
    """How many steps are offered, and whether something is held for want of room."""

    many: int
    held: bool


class Message(NamedTuple):
    """A message: its partner, its operation, one to four values, and the partner to reply to."""

    partner: int
    operation: int
    values: Tuple[int, ...]
    reply: int = 0


class Tally(NamedTuple):
    """How many orders started, and how many ended in each way."""

    started: int
    well: int
    handled: int
    failed: int
    left: int


class Order(NamedTuple):
    """A live order: its slot, its root's mark, the marks of activities and arms, the values of its bound variables, the scopes that it remembers, and the number
    of the fault that its root faulted with, 0 where it has not. What a mark says stands in its lower four bits (docs/EMBEDDING.md)."""

    slot: int
    root: int
    marks: bytes
    variables: Dict[int, int]
    remembered: Tuple[int, ...]
    cause: int


class Ran(NamedTuple):
    """How many steps a run took, and the refusal that stopped it, or 0."""

    taken: int
    refusal: int


def version() -> int:
    """The version of the library: 10,000 for each first number, 100 for each second, and the third."""
    return _c.moonhalyard_version()


def seal(kept: bytes) -> int:
    """The seal of bytes, to be kept behind them: read again, they are whole where their seal is the one that was kept."""
    return _c.moonhalyard_seal(kept, len(kept))


def says(refusal: int) -> str:
    """A refusal in words."""
    return _c.moonhalyard_says(refusal).decode()


def _number(data: bytes, at: int, width: int = 4) -> int:
    return int.from_bytes(data[at : at + width], "little")


def _within(n: int, most: int) -> int:
    """A number that C would silently cut is refused here."""
    if not 0 <= n <= most:
        raise ValueError("%d is not within 0 to %d" % (n, most))
    return n


def _told(answer: int) -> int:
    if answer >> 32:
        raise Refused(answer >> 32, answer & 0xFFFFFFFF)
    return answer


def text(said: Union[str, bytes]) -> bytes:
    """The plan that a text says (docs/DESK.md, "A plan as text"). The place of a refusal is the line in trouble, counted from 1."""
    data = said.encode() if isinstance(said, str) else bytes(said)
    plan = ctypes.create_string_buffer(4096)
    length = _told(_c.moonhalyard_text(data, len(data), plan, 4096))
    return plan.raw[:length]


def draw(plan: bytes) -> str:
    """A plan as text, which `text` reads back as the same bytes."""
    said = ctypes.create_string_buffer(65536)
    length = _told(_c.moonhalyard_draw(plan, len(plan), said, len(said)))
    return said.raw[:length].decode()


def accept(plan: bytes) -> int:
    """How many activities and arms a plan has."""
    return _told(_c.moonhalyard_accept(plan, len(plan)))


def show(plan: bytes, k: int) -> Tuple[int, int]:
    """Where activity or arm k stands in a plan, and how many bytes spell it."""
    answer = _c.moonhalyard_show(plan, len(plan), _within(k, 0xFFFFFFFF))
    if answer >> 48:
        raise Refused(answer >> 48)
    return answer >> 24 & 0xFFFFFF, answer & 0xFFFFFF


def write(table: Sequence[Sequence[int]]) -> bytes:
    """The plan of a table: rows of 20 numbers each, as the header tells. The place of a refusal is the row in trouble."""
    numbers = [_within(n, 0xFFFFFFFF) for row in table for n in row]
    plan = ctypes.create_string_buffer(4096)
    length = _told(_c.moonhalyard_write((ctypes.c_uint32 * len(numbers))(*numbers), len(numbers), plan, 4096))
    return plan.raw[:length]


def rows(plan: bytes) -> List[List[int]]:
    """The table of a plan: rows of 20 numbers each."""
    room = ROW * 4355
    table = (ctypes.c_uint32 * room)()
    many = _told(_c.moonhalyard_rows(plan, len(plan), table, room))
    return [list(table[at : at + ROW]) for at in range(0, many, ROW)]


def mend(plan: bytes) -> Tuple[bytes, int]:
    """A plan whose numbers are padded with zero groups, in shortest form, and how many groups were cut."""
    out = ctypes.create_string_buffer(4096)
    answer = _told(_c.moonhalyard_mend(plan, len(plan), out, 4096))
    return out.raw[: answer & 0xFFFF], answer >> 16


def _step(answer: int) -> Step:
    refusal = answer >> 32 & 255
    if refusal:
        raise Refused(refusal)
    return Step(answer >> 24 & 255, answer >> 16 & 255, answer >> 8 & 255, ENDS[answer & 255], answer >> 40 & 255)


class State:
    """A plan with its orders, the messages that wait and the tally."""

    def __init__(self, plan: bytes):
        """A fresh state with a plan."""
        self._bytes = ctypes.create_string_buffer(STATE)
        _told(_c.moonhalyard_load(plan, len(plan), self._bytes, STATE))

    @classmethod
    def from_bytes(cls, saved: bytes) -> "State":
        """The state that bytes hold, as `to_bytes` gave them, of this or an older version."""
        state = cls.__new__(cls)
        state._bytes = ctypes.create_string_buffer(STATE)
        refusal = _c.moonhalyard_upgrade(saved, len(saved), state._bytes, STATE)
        if refusal:
            raise NoState(refusal)
        return state

    def to_bytes(self) -> bytes:
        """The bytes to save: they can be given to `from_bytes`, to a host in C or Rust, and to the desk's `open`."""
        return self._bytes.raw

    def post(self, partner: int, operation: int, *values: int, reply: int = 0) -> None:
        """Posts a message with one to four values, and with the partner to reply to: it waits after the others."""
        numbers = [_within(v, 0xFFFFFFFF) for v in (partner, operation, len(values)) + values]
        refusal = _c.moonhalyard_post(self._bytes, STATE, *(numbers + [0, 0, 0, 0])[:7], _within(reply, 0xFFFFFFFF))
        if refusal:
            raise Refused(refusal)

    def collect(self) -> Optional[Message]:
        """The oldest message for a partner that the plan never receives on, which waits no longer; None where there is none."""
        message = ctypes.create_string_buffer(MESSAGE)
        refusal = _c.moonhalyard_collect(self._bytes, STATE, message, MESSAGE)
        if refusal == 15:
            return None
        if refusal:
            raise Refused(refusal)
        return _message(message.raw)

    def drop(self, place: int) -> Optional[Message]:
        """The message that waits at a place, counted from 0, which waits no longer, whatever its partner; None where none waits there."""
        message = ctypes.create_string_buffer(MESSAGE)
        refusal = _c.moonhalyard_drop(self._bytes, STATE, _within(place, 2**64 - 1), message, MESSAGE)
        if refusal == 15:
            return None
        if refusal:
            raise Refused(refusal)
        return _message(message.raw)

    def offers(self) -> Offers:
        """How many steps are offered, and whether something is held."""
        answer = _c.moonhalyard_offers(self._bytes, STATE)
        if answer >> 40:
            raise Refused(answer >> 40)
        return Offers(answer & 0xFFFFFFFF, bool(answer >> 32 & 1))

    def offer(self, choice: int) -> Step:
        """The step that a choice would take, not taken."""
        return _step(_c.moonhalyard_offer(self._bytes, STATE, _within(choice, 2**64 - 1)))

    def list(self, first: int = 0, most: int = 32768) -> List[Step]:
        """The steps that are offered from the choice `first` on, not taken, `most` of them at most."""
        out = (ctypes.c_uint64 * most)()
        many = _told(_c.moonhalyard_list(self._bytes, STATE, _within(first, 0xFFFFFFFF), out, most))
        return [_step(answer) for answer in out[:many]]

    def step(self, choice: int) -> Step:
        """Takes the step with a choice."""
        return _step(_c.moonhalyard_step(self._bytes, STATE, _within(choice, 2**64 - 1)))

    def run(self, choices: Sequence[int], budget: Optional[int] = None) -> Ran:
        """Takes the steps with these choices, until they end, the budget is used up or a step is refused."""
        whole = len(choices) if budget is None else _within(budget, 2**64 - 1)
        left = ctypes.c_uint64(whole)
        many = (ctypes.c_uint64 * len(choices))(*(_within(c, 2**64 - 1) for c in choices))
        refusal = _c.moonhalyard_run(self._bytes, STATE, many, len(choices), ctypes.byref(left))
        return Ran(whole - left.value, refusal)

    def tell(self, choices: Sequence[int], budget: Optional[int] = None) -> Tuple[Ran, List[Step]]:
        """The same, and the steps that were taken, one after the other: which order, which activity, and how the order ended, if it did."""
        whole = len(choices) if budget is None else _within(budget, 2**64 - 1)
        left = ctypes.c_uint64(whole)
        many = (ctypes.c_uint64 * len(choices))(*(_within(c, 2**64 - 1) for c in choices))
        told = (ctypes.c_uint64 * len(choices))()
        refusal = _c.moonhalyard_tell(self._bytes, STATE, many, len(choices), ctypes.byref(left), told, len(choices))
        taken = whole - left.value
        return Ran(taken, refusal), [_step(answer) for answer in told[:taken]]

    @property
    def plan(self) -> bytes:
        """The plan's bytes."""
        data = self._bytes.raw
        return data[PLAN : PLAN + min(_number(data, PLAN_LENGTH, 8), WAITING - PLAN)]

    @property
    def tally(self) -> Tally:
        """How many orders started, and how they ended."""
        data = self._bytes.raw
        return Tally(*(_number(data, at) for at in (TALLY_STARTED, TALLY_WELL, TALLY_HANDLED, TALLY_FAILED, TALLY_LEFT)))

    @property
    def waiting(self) -> List[Message]:
        """The messages that wait, oldest first."""
        data = self._bytes.raw
        many = min(_number(data, WAITING, 8), MESSAGES_MOST)
        return [_message(data[at : at + MESSAGE]) for at in range(MESSAGES, MESSAGES + many * MESSAGE, MESSAGE)]

    @property
    def orders(self) -> List[Order]:
        """The live orders, by their slots."""
        data = self._bytes.raw
        found = []
        for slot in range(ORDERS_MOST):
            order = data[ORDERS + slot * ORDER : ORDERS + (slot + 1) * ORDER]
            if order[ORDER_ROOT]:
                bound = [i for i in range(ORDER_VALUES_MOST) if order[ORDER_BOUND + i]]
                kept = min(_number(order, ORDER_KEPT, 8), ORDER_REMEMBERED_MOST)
                found.append(Order(
                    slot,
                    order[ORDER_ROOT],
                    order[ORDER_MARKS : ORDER_MARKS + ORDER_MARKS_MOST],
                    {i: _number(order, ORDER_VALUES + 4 * i) for i in bound},
                    tuple(order[ORDER_REMEMBERED + CLOSING_SCOPE + CLOSING * i] for i in range(kept)),
                    order[ORDER_CAUSE],
                ))
        return found

    def save(self, name: str) -> None:
        """Saves the state: written whole under a name of its own, brought to disk, renamed over the old, and the folder brought to disk."""
        folder = os.path.dirname(os.path.abspath(name))
        file, other = tempfile.mkstemp(prefix=os.path.basename(name) + ".", dir=folder)
        try:
            with os.fdopen(file, "wb") as out:
                out.write(self.to_bytes())
                out.flush()
                os.fsync(out.fileno())
            os.rename(other, name)
        except BaseException:
            with contextlib.suppress(OSError):
                os.unlink(other)
            raise
        file = os.open(folder, os.O_RDONLY | os.O_DIRECTORY)
        try:
            os.fsync(file)
        finally:
            os.close(file)


def _message(data: bytes) -> Message:
    count = min(_number(data, MESSAGE_COUNT), MESSAGE_VALUES_MOST)
    return Message(
        _number(data, MESSAGE_PARTNER),
        _number(data, MESSAGE_OPERATION),
        tuple(_number(data, MESSAGE_VALUES + 4 * i) for i in range(count)),
        _number(data, MESSAGE_REPLY),
    )


@contextlib.contextmanager
def kept(name: str, plan: Optional[bytes] = None, fresh: bool = False) -> Iterator[State]:
    """The state of a file, for one host at a time: locked (NAME.lock), read, lent, and saved where nothing was raised and it changed.

    Where there is no such file, or `fresh` says not to look at it, a fresh state with `plan`; without a plan, FileNotFoundError."""
    with open(name + ".lock", "ab") as lock:
        fcntl.flock(lock, fcntl.LOCK_EX)
        before = None
        if not fresh or plan is None:
            try:
                with open(name, "rb") as file:
                    before = file.read()
            except FileNotFoundError:
                if plan is None:
                    raise
        state = State(plan) if before is None else State.from_bytes(before)
        yield state
        if state.to_bytes() != before:
            state.save(name)
