"""Lists of calls for oracle/compare and oracle/record: random ones, every short one, and equal pairs.

Document 01 refuses no call of them with another number than 4 and 5, if as many rows and entries are lent as they use.
"""
import random

AMOUNTS = [0, 1, 2, 5, 4294967295, 4294967296, 2**63, 2**63 - 1, 2**64 - 1, 2**64 - 2]
OWNERS = [0, 0, 0, 0, 1, 1, 2, 3, 4294967295]
KEYS_NAMED = {"find": 1, "unioned": 2, "join": 2, "post": 1, "probe": 1, "probe_key": 1, "try_probe": 1}
MOST_KEYS, MOST_OPEN = 65536, 32


def amount(r):
    return r.choice(AMOUNTS) if r.random() < 0.3 else r.randrange(1000)


def named_keys(line):
    """The keys that a call names."""
    name, *numbers = line.split()
    return [int(number) for number in numbers[:KEYS_NAMED.get(name, 0)]]


class Known:
    """The number of keys and the open snapshots after some calls: what decides refusals 1, 6, 7 and 11."""

    def __init__(self):
        self.keys, self.serial = 0, 0
        self.open = []  # each with its token and the number of keys then, the innermost last

    def copy(self):
        other = Known()
        other.keys, other.serial, other.open = self.keys, self.serial, list(self.open)
        return other

    def takes(self, line):
        """Whether document 01 answers a call with 0, 4 or 5 here."""
        name, *numbers = line.split()
        if name == "new":
            return self.keys < MOST_KEYS
        if name == "snapshot":
            return len(self.open) < MOST_OPEN
        if name in ("rollback", "commit"):
            return bool(self.open) and self.open[-1][0] == int(numbers[0])
        if name in ("keys", "actions", "changes"):
            return any(token == int(numbers[0]) for token, _ in self.open)
        return all(key < self.keys for key in named_keys(line))

    def add(self, line):
        """Follows a call that it takes."""
        name = line.split(" ", 1)[0]
        if name == "new":
            self.keys += 1
        elif name == "snapshot":
            self.serial += 1
            self.open.append((self.serial, self.keys))
        elif name == "commit":
            self.open.pop()
        elif name == "rollback":
            self.keys = self.open.pop()[1]


class Writer:
    """Writes a list, with at most so many keys."""

    def __init__(self, r, rows, log):
        self.r, self.rows, self.known = r, rows, Known()
        self.lines = [f"table {rows} {log}"]

    def write(self, line):
        self.lines.append(line)
        self.known.add(line)

    def new(self):
        if self.known.keys < self.rows:
            self.write(f"new {self.r.choice(OWNERS)} {amount(self.r)}")

    def key(self):
        return self.r.randrange(self.known.keys)

    def close(self, name):
        """Takes back or commits the innermost snapshot, if one is open."""
        if self.known.open:
            self.write(f"{name} {self.known.open[-1][0]}")

    def pairs(self, size, value):
        """So many keys, joined root to root in equal pairs: the longest walks that so many keys can have."""
        for _ in range(size):
            self.write(f"new {value()}")
        step = 1
        while step < size:
            for a in range(step - 1, size, 2 * step):
                self.write(f"join {a} {a + step}")
            step *= 2

    def one(self, weights):
        """A call by chance; none where there is nothing for it to name."""
        name = self.r.choices(list(weights), list(weights.values()))[0]
        if name == "new" or self.known.keys == 0:
            self.new()
        elif name == "snapshot":
            if len(self.known.open) < MOST_OPEN:
                self.write("snapshot")
        elif name in ("rollback", "commit"):
            self.close(name)
        elif name in ("keys", "actions", "changes"):
            if self.known.open:
                self.write(f"{name} {self.r.choice(self.known.open)[0]}")
        elif name in ("join", "unioned"):
            self.write(f"{name} {self.key()} {self.key()}")
        elif name == "post":
            self.write(f"post {self.key()} {self.r.choice(OWNERS)} {amount(self.r)}")
        elif name == "len":
            self.write("len")
        else:
            self.write(f"{name} {self.key()}")

    def watched(self, weights):
        """A call by chance, within a snapshot of its own that shows what it logs."""
        self.write("snapshot")
        token = self.known.serial
        self.one(weights)
        self.write(f"actions {token}")
        self.close("commit")


EVERY = {
    "new": 10, "len": 1, "find": 8, "unioned": 6, "join": 14, "post": 8, "probe": 4, "probe_key": 4, "try_probe": 4,
    "snapshot": 7, "rollback": 5, "commit": 3, "keys": 2, "actions": 2, "changes": 2,
}
OPENING = dict(EVERY, snapshot=60)
CLOSING = dict(EVERY, snapshot=2, rollback=20, commit=20)
ON_TOKENS = {"snapshot": 4, "rollback": 2, "commit": 2, "keys": 1, "changes": 1}
ON_ROWS = {name: weight for name, weight in EVERY.items() if name == "new" or name in KEYS_NAMED}


def small(r):
    """A small table, with some nested snapshots."""
    w = Writer(r, r.randrange(2, 14), 4000)
    for _ in range(r.randrange(5, 160)):
        w.one(EVERY)
    return w.lines


def nested(r):
    """A small table, with up to 32 snapshots open, and then closed again."""
    w = Writer(r, r.randrange(2, 14), 6000)
    for weights in (OPENING, CLOSING):
        for _ in range(r.randrange(20, 90)):
            w.one(weights)
    return w.lines


def deep(r, spare=8):
    """Equal pairs joined root to root, so that walks are as long as they can be, and then anything."""
    size = 2**r.randrange(2, 8)
    w = Writer(r, size + spare, 4000)
    w.pairs(size, lambda: f"0 {r.randrange(1000)}")
    for _ in range(r.randrange(20, 120)):
        w.one(EVERY)
    return w.lines


def large(r):
    """Thousands of keys, some of them in equal pairs. A call logs at most 32 entries, so 4,000 fit into the log."""
    rows = r.choice([1500, 5000, 20000, 65536])
    w = Writer(r, rows, 131072)
    if r.random() < 0.5:
        w.pairs(2**(rows.bit_length() - 2), lambda: f"0 {r.randrange(1000)}")
    while w.known.keys < rows * 3 // 4:
        w.new()
    for _ in range(r.randrange(1, 4)):
        for _ in range(r.randrange(1000, 4000)):
            if w.known.open and len(w.known.open) < MOST_OPEN and r.random() < 0.8:
                w.watched(ON_ROWS)
            else:
                w.one(ON_TOKENS if r.random() < 0.5 else ON_ROWS)
        while w.known.open:
            w.close("commit")
    return w.lines


def random_lists(seed):
    r = random.Random(seed)
    while True:
        kind = r.random()
        yield small(r) if kind < 0.8 else nested(r) if kind < 0.9 else deep(r) if kind < 0.9995 else large(r)


BASES = [
    ["new 1 5", "new 0 7"],
    ["new 1 5", "new 2 7", "snapshot", "new 0 1"],
    ["new 0 1", "new 0 2", "new 0 4", "new 0 8", "join 0 1", "join 2 3", "join 0 2"],
    ["new 0 1", "new 0 2", "new 0 4", "new 0 8", "join 0 1", "join 2 3", "snapshot", "join 0 2", "snapshot"],
    ["new 0 18446744073709551615", "new 3 1", "snapshot"],
]
# All fifteen calls. INNER and OUTER stand for the token of the innermost and of the outermost open snapshot.
STEPS = [
    "new 1 3", "len", "find 0", "unioned 0 1", "join 0 1", "join 1 2", "join 2 0", "post 0 2 1", "post 1 0 0",
    "probe 0", "probe_key 1", "try_probe 0", "snapshot", "rollback INNER", "commit INNER", "keys INNER", "keys OUTER",
    "actions INNER", "actions OUTER", "changes INNER", "changes OUTER",
]


def sequences(length=4):
    """On each base every sequence of so many steps that document 01 takes. A shorter one is the beginning of these."""
    for base in BASES:
        known = Known()
        for line in base:
            known.add(line)
        yield from extended(["table 8 32"] + base, known, length)


def extended(lines, known, more):
    if more == 0:
        yield lines
        return
    outer, inner = (str(known.open[at][0]) if known.open else "0" for at in (0, -1))  # no token is 0
    for line in dict.fromkeys(step.replace("OUTER", outer).replace("INNER", inner) for step in STEPS):
        if known.takes(line):
            then = known.copy()
            then.add(line)
            yield from extended(lines + [line], then, more - 1)


def equal_pairs():
    """65,536 keys joined root to root in equal pairs, and then every third found, within snapshots and after."""
    w = Writer(random.Random(0), MOST_KEYS, 131072)
    w.pairs(MOST_KEYS, lambda: "0 1")
    w.write("snapshot")
    for key in range(0, MOST_KEYS, 3):
        w.write("snapshot")
        token = w.known.serial
        for line in (f"find {key}", f"actions {token}", f"commit {token}"):
            w.write(line)
    for line in ("probe_key 0", "changes 1", "keys 1", "rollback 1", "find 0", "find 0"):
        w.write(line)
    yield w.lines
