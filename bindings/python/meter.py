"""The meter's table for Python, by ctypes over the shared object that bindings/build makes.

    >>> meter = Meter(rows=1000, log=4000)
    >>> a = meter.new_key(owner=7, amount=60000)
    >>> b = meter.new_key(amount=1500)
    >>> trial = meter.snapshot()
    >>> meter.unify_var_var(a, b)
    >>> meter.probe_value(b)
    Value(owner=7, amount=61500)
    >>> meter.rollback_to(trial)
    >>> meter.probe_value(b)
    Value(owner=0, amount=1500)

A Journal has the calls that changed a table; replayed into a fresh one it gives the same groups, owners and amounts.

    >>> day, meter = Journal(), Meter(rows=1000, log=0)
    >>> answers = meter.record(day, [(NEW, 7, 60000, 0), (NEW, 0, 1500, 0), (JOIN, 0, 1, 0)])
    >>> night = Meter(rows=1000, log=0)
    >>> night.replay(bytes(day))
    3
    >>> night.probe_value(1)
    Value(owner=7, amount=61500)

Methods have the names of the Rust crate ena. A refused call raises a subclass of Refusal, which has document 01's or
02's name and number. Keys, tokens and owners are plain ints; owner 0 is none.
"""

import ctypes
import os
import struct
from pathlib import Path
from typing import NamedTuple

ROWS_LIMIT = 65_536
LOG_LIMIT = 1_048_576
SNAPSHOTS_LIMIT = 32

_NUMBERS, _SERIALS, _CALL, _ANSWER = 67, 33, 4, 9
_COUNT, _OPEN = 0, 2
# How many numbers of crowns a row has (rank, owner), and of the log an entry (kind, key, and the old row's parent, rank,
# owner and amount, as a low and a high word).
_CROWN, _ENTRY = 2, 7
_u8, _u32, _u64 = ctypes.c_uint8, ctypes.c_uint32, ctypes.c_uint64

# Codes of calls, for Meter.call, run and record.
(NEW, LEN, FIND, UNIONED, JOIN, POST, PROBE, PROBE_KEY, TRY_PROBE,
 SNAPSHOT, ROLLBACK, COMMIT, KEYS, ACTIONS, CHANGES) = range(15)  # fmt: skip

# A journal's bytes, what is known of it, and a result.
_ENTRY_BYTES, _TRAILER_BYTES, _SEGMENT = 24, 12, 2048
_KNOWN, _RESULT = 4, 2
_USED, _SEGMENTS, _OPENED, _WAITING = range(_KNOWN)
_WRITTEN = {NEW, POST, JOIN, SNAPSHOT, ROLLBACK, COMMIT}


class Refusal(Exception):
    """A call was refused. Only OwnerClash and TooMuch change anything: they keep what their walks rewrote."""

    number = 0
    name = ""

    def __init__(self):
        super().__init__(f"{self.name} ({self.number}): {self.__doc__}")


class NoKey(Refusal):
    """a named key is not below the count"""

    number, name = 1, "NO_KEY"


class KeysFull(Refusal):
    """all lent rows are live"""

    number, name = 2, "KEYS_FULL"


class LogFull(Refusal):
    """a snapshot is open and the entries that the call would log don't fit"""

    number, name = 3, "LOG_FULL"


class OwnerClash(Refusal):
    """the merge of two different named owners"""

    number, name = 4, "OWNER_CLASH"


class TooMuch(Refusal):
    """owners merge, but the sum is above 18446744073709551615"""

    number, name = 5, "TOO_MUCH"


class NotInnermost(Refusal):
    """rollback or commit with a token that isn't the innermost open snapshot's"""

    number, name = 6, "NOT_INNERMOST"


class TooDeep(Refusal):
    """32 snapshots are open"""

    number, name = 7, "TOO_DEEP"


class BrokenTable(Refusal):
    """damaged memory; a Meter owns its memory and never gets it"""

    number, name = 8, "BROKEN_TABLE"


class BadState(Refusal):
    """more rows or log than the limits, or a state that is none"""

    number, name = 9, "BAD_STATE"


class SerialsSpent(Refusal):
    """the last serial is 18446744073709551615"""

    number, name = 10, "SERIALS_SPENT"


class NotOpen(Refusal):
    """no open snapshot has the token"""

    number, name = 11, "NOT_OPEN"


class BadJournal(Refusal):
    """no journal, entries that can't stand in one, or another number of open snapshots than the meter's"""

    number, name = 12, "BAD_JOURNAL"


class NoRoom(Refusal):
    """the journal would be longer than its limit"""

    number, name = 16, "NO_ROOM"


REFUSALS = {kind.number: kind for kind in Refusal.__subclasses__()}


class NotCarriedOut(ValueError):
    """Numbers that are no call, or no list of calls. Nothing was carried out and nothing written."""

    names = {1: "NO_STATE", 2: "NO_CALL", 3: "NO_ANSWERS"}

    def __init__(self, number):
        self.number, self.name = number, self.names[number]
        super().__init__(f"{self.name} ({number})")


class Stopped(Exception):
    """A replay stopped at an entry, whose place and Refusal it has. The entries before it are carried out."""

    def __init__(self, entry, refusal):
        self.entry, self.refusal = entry, refusal
        super().__init__(f"entry {entry}: {refusal}")


class Value(NamedTuple):
    """What a group has. Owner 0 is none."""

    owner: int
    amount: int


class Answer(NamedTuple):
    """The nine numbers of an answer."""

    no: int
    key: int
    token: int
    owner: int
    amount: int
    steps: int
    yes: int
    start: int
    end: int


class Row(NamedTuple):
    """A row as it stands in memory. Rank, owner and amount mean something for a root alone."""

    parent: int
    rank: int
    owner: int
    amount: int


class NewElem(NamedTuple):
    """An entry of the log: the key was made."""

    key: int


class SetElem(NamedTuple):
    """An entry of the log: the key's row was changed from this one."""

    key: int
    row: Row


def _load():
    """The shared object: METER_LIBRARY, or the one that bindings/build leaves."""
    made = Path(__file__).resolve().parents[2] / "target" / "bindings" / "libmeter.so"
    path = Path(os.environ.get("METER_LIBRARY", made))
    if not path.is_file():
        raise ImportError(f"no shared object at {path}: run bindings/build, or name it in METER_LIBRARY")
    library = ctypes.PyDLL(str(path))  # keeps the interpreter's lock: no two threads are in a table at once
    part, number = [ctypes.c_void_p, ctypes.c_size_t], [ctypes.c_size_t]
    functions = {
        "meter_call": 8 * part,  # numbers, serials, parents, crowns, amounts, log; call, answer
        "meter_calls": 8 * part,
        "meter_record": 10 * part,  # and the journal's bytes, and what is known of it
        "meter_replay": 8 * part,  # the six; journal, result
        "meter_flush": 3 * part,  # journal, known, result
        "meter_append": part + number + 2 * part,  # journal, used, entries, result
        "meter_known": 3 * part,  # journal, known, result
    }
    for name, arguments in functions.items():
        function = getattr(library, name)
        function.argtypes = arguments
        function.restype = ctypes.c_uint32
    return library


_library = _load()


class Meter:
    """A table that owns its memory: room for `rows` keys, and for `log` entries while a snapshot is open."""

    def __init__(self, rows, log):
        if not (0 <= rows <= ROWS_LIMIT and 0 <= log <= LOG_LIMIT):
            raise BadState
        self._numbers = (_u32 * _NUMBERS)()
        self._serials = (_u64 * _SERIALS)()
        self._parents = (_u32 * rows)()
        self._crowns = (_u32 * (_CROWN * rows))()
        self._amounts = (_u64 * rows)()
        self._log = (_u32 * (_ENTRY * log))()
        self._lent = _lent(self._numbers, self._serials, self._parents, self._crowns, self._amounts, self._log)

    def _carry_out(self, function, *parts):
        _check(function(*self._lent, *_lent(*parts)))

    def call(self, code, a=0, b=0, c=0):
        """Any call by its numbers. The whole answer, a refused one too."""
        call, answer = _numbers((code, a, b, c)), (_u64 * _ANSWER)()
        self._carry_out(_library.meter_call, call, answer)
        return Answer(*answer)

    def run(self, calls):
        """A list of calls, each of four numbers, in one go. A list of answers; a refused call doesn't stop it."""
        calls = _numbers([number for call in calls for number in call])
        answers = _room_for_answers(calls)
        self._carry_out(_library.meter_calls, calls, answers)
        return _answers(answers)

    def record(self, journal, calls):
        """A list of calls as for `run`, which writes to the journal those that change the table and are done.

        Such a call is not carried out, and answers 12 (BadJournal), where the journal has another number of open
        snapshots than the meter; else 16 (NoRoom), where the journal has a limit that its entry would pass."""
        calls = _numbers([number for call in calls for number in call])
        answers = _room_for_answers(calls)
        journal._make_room(sum(code in _WRITTEN for code in calls[::_CALL]))
        self._carry_out(_library.meter_record, calls, answers, journal._bytes, journal._known)
        return _answers(answers)

    def replay(self, journal):
        """Carries out the entries of a journal, a Journal or its bytes, and says how many they were.

        It stops at the first that isn't done: Stopped. Bytes that are no journal are BadJournal, and nothing is carried
        out. Into a fresh meter with as many rows, and a log of 32 for each entry, it gives the groups, owners and
        amounts that the recorded meter had."""
        data, result = _bytes(bytes(journal)), (_u64 * _RESULT)()
        self._carry_out(_library.meter_replay, data, result)
        no, entry = result
        if no == BadJournal.number:
            raise BadJournal
        if no:
            raise Stopped(entry, REFUSALS[no]())
        return entry

    def _ask(self, *numbers):
        answer = self.call(*numbers)
        if answer.no:
            raise REFUSALS[answer.no]
        return answer

    def __len__(self):
        return self._ask(LEN).end

    @property
    def num_open_snapshots(self):
        """How many snapshots are open."""
        return self._numbers[_OPEN]

    @property
    def in_snapshot(self):
        """Whether a snapshot is open."""
        return self.num_open_snapshots > 0

    def row(self, key):
        """A live key's row as it stands in memory."""
        if not 0 <= key < self._numbers[_COUNT]:
            raise NoKey
        rank, owner = self._crowns[_CROWN * key : _CROWN * (key + 1)]
        return Row(self._parents[key], rank, owner, self._amounts[key])

    def new_key(self, owner=0, amount=0):
        """A new key, a group of its own."""
        return self._ask(NEW, owner, amount).key

    def find(self, key):
        """The root of the key's group."""
        return self._ask(FIND, key).key

    def unioned(self, a, b):
        """Whether two keys are of one group."""
        return bool(self._ask(UNIONED, a, b).yes)

    def unify_var_var(self, a, b):
        """Joins the groups of two keys: amounts add, a named owner wins over none."""
        self._ask(JOIN, a, b)

    def unify_var_value(self, key, owner=0, amount=0):
        """Posts a value to the key's group, merged as in a join."""
        self._ask(POST, key, owner, amount)

    def probe_value(self, key):
        """The value of the key's group."""
        answer = self._ask(PROBE, key)
        return Value(answer.owner, answer.amount)

    def probe_key_value(self, key):
        """The root of the key's group, and the group's value."""
        answer = self._ask(PROBE_KEY, key)
        return answer.key, Value(answer.owner, answer.amount)

    def try_probe_value(self, key):
        """The group's value where the key is its root, else None. No walk."""
        answer = self._ask(TRY_PROBE, key)
        return Value(answer.owner, answer.amount) if answer.yes else None

    def snapshot(self):
        """Opens a snapshot and gives its token. Snapshots are ended innermost first."""
        return self._ask(SNAPSHOT).token

    def rollback_to(self, token):
        """Takes back all that happened since the innermost snapshot, and ends it."""
        self._ask(ROLLBACK, token)

    def commit(self, token):
        """Ends the innermost snapshot and keeps what happened since."""
        self._ask(COMMIT, token)

    def vars_since_snapshot(self, token):
        """The keys made since an open snapshot, as a range."""
        answer = self._ask(KEYS, token)
        return range(answer.start, answer.end)

    def actions_since_snapshot(self, token):
        """What was logged since an open snapshot, oldest first: NewElem and SetElem."""
        answer = self._ask(ACTIONS, token)
        return [self._entry(at) for at in range(answer.start, answer.end)]

    def _entry(self, at):
        kind, key, parent, rank, owner, low, high = self._log[_ENTRY * at : _ENTRY * (at + 1)]
        return NewElem(key) if kind == 1 else SetElem(key, Row(parent, rank, owner, high << 32 | low))

    def has_changes(self, token):
        """Whether anything was logged since an open snapshot."""
        return bool(self._ask(CHANGES, token).yes)


class Journal:
    """A journal that owns its bytes: empty, and growing as it needs to, up to `limit` bytes if one is named.

    Calls are recorded by Meter.record. Their entries wait until a segment is ended: at its 2048th entry, or by `flush`.
    `bytes(journal)` is all of it: it flushes first."""

    def __init__(self, limit=None):
        self._bytes = (_u8 * 0)()
        self._known = (_u64 * _KNOWN)()
        self._limit = limit

    @classmethod
    def from_bytes(cls, data):
        """The journal that these bytes are, or BadJournal."""
        journal = cls()
        journal._bytes = _bytes(bytes(data))
        journal._judge(len(journal._bytes))
        return journal

    def _judge(self, used):
        no, _ = _result(_library.meter_known, (_u8 * used).from_buffer(self._bytes), self._known)
        if no:
            raise REFUSALS[no]

    def __len__(self):
        """How many entries it has, those that wait too."""
        used, segments, _, waiting = self._known
        return (used - _TRAILER_BYTES * segments) // _ENTRY_BYTES + waiting

    def __bytes__(self):
        self.flush()
        return bytes(self._bytes)[: self._known[_USED]]

    @property
    def waiting(self):
        """How many entries wait for their segment to be ended."""
        return self._known[_WAITING]

    @property
    def segments(self):
        """How many segments are ended."""
        return self._known[_SEGMENTS]

    @property
    def num_open_snapshots(self):
        """How many snapshots are open at its end. Meter.record asks for a meter with as many."""
        return self._known[_OPENED]

    def flush(self):
        """Ends the segment of the entries that wait, if there are any."""
        no, _ = _result(_library.meter_flush, self._bytes, self._known)
        if no:
            raise REFUSALS[no]

    def append(self, entries):
        """Appends entries, or the bytes of some, as one segment, which 1 to 2048 can be.

        What waits is made a segment first. BadJournal where the journal wouldn't be valid with them, NoRoom where they don't fit into its limit; none is
        appended then."""
        if not isinstance(entries, (bytes, bytearray, memoryview)):
            entries = b"".join(entries)
        self.flush()
        used = self._known[_USED]
        self._lengthen(used + len(entries) + _TRAILER_BYTES)
        no, length = _result(_library.meter_append, self._bytes, used, _bytes(bytes(entries)))
        if no:
            raise REFUSALS[no]
        self._judge(length)

    def replay(self, meter):
        """Carries out its entries on a meter, as Meter.replay does."""
        return meter.replay(self)

    def _make_room(self, entries):
        """For so many entries more, and the trailers."""
        entries += self._known[_WAITING]
        self._lengthen(self._known[_USED] + _ENTRY_BYTES * entries + _TRAILER_BYTES * (entries // _SEGMENT + 1))

    def _lengthen(self, wanted):
        """Room for so many bytes in all, up to the limit; twice of what there is, so that little is copied."""
        if wanted > len(self._bytes):
            room = max(wanted, 2 * len(self._bytes))
            longer = (_u8 * (room if self._limit is None else min(room, self._limit)))()
            ctypes.memmove(longer, self._bytes, len(self._bytes))
            self._bytes = longer


def _entry(kind, a=0, b=0, owner=0, amount=0):
    try:
        return struct.pack("<4IQ", kind, a, b, owner, amount)
    except struct.error:
        raise BadJournal from None


def entry_new(owner=0, amount=0):
    """An entry of a journal, as its 24 bytes: a new key."""
    return _entry(1, owner=owner, amount=amount)


def entry_post(key, owner=0, amount=0):
    """An entry of a journal: a value posted to a key's group."""
    return _entry(2, key, owner=owner, amount=amount)


def entry_join(a, b):
    """An entry of a journal: the groups of two keys joined."""
    return _entry(3, a, b)


def entry_snapshot():
    """An entry of a journal: a snapshot."""
    return _entry(4)


def entry_rollback():
    """An entry of a journal: a rollback of the innermost snapshot."""
    return _entry(5)


def entry_commit():
    """An entry of a journal: a commit of the innermost snapshot."""
    return _entry(6)


def _lent(*parts):
    """A pointer and a length for each array, which must outlive them; a number as it is."""
    words = []
    for part in parts:
        words += [part] if isinstance(part, int) else [ctypes.addressof(part), len(part)]
    return words


def _check(returned):
    if returned:
        raise NotCarriedOut(returned)


def _result(function, *parts):
    result = (_u64 * _RESULT)()
    _check(function(*_lent(*parts, result)))
    return tuple(result)


def _bytes(data):
    return (_u8 * len(data)).from_buffer_copy(data)


def _room_for_answers(calls):
    return (_u64 * (_ANSWER * (len(calls) // _CALL)))()


def _answers(numbers):
    return [Answer(*numbers[at : at + _ANSWER]) for at in range(0, len(numbers), _ANSWER)]


def _numbers(numbers):
    """As lent numbers. ctypes would cut a number to 64 bits in silence, so it is tested here."""
    if not all(0 <= number < 1 << 64 for number in numbers):
        raise NotCarriedOut(2)
    return (_u64 * len(numbers))(*numbers)
