"""Where the meter and the oracle part on a list of calls, and the shortest list that shows it."""
import itertools
import re
import subprocess
import time
import typing

from lists import Known, named_keys

LIMIT = 600  # seconds for one run of a program
WIDE = 1100  # with more rows than this, the live table is not looked at after each call
LIVE_EVERY = 1000  # but after so many
RUN = 9  # calls of a small table that follow one another, where lists are to be lent
FEW = 16  # of so many calls, all sublists are tried
SECONDS = 300  # for leaving out calls; a list that cannot be made much shorter would take for ever
TOKEN_CALLS = ("rollback", "commit", "keys", "actions", "changes")
ENDED = b"ended "
STATE = re.compile(rb" state (\d+) (\d+) ")


def run(program, lines):
    """What a program, with its arguments, prints for a list, line by line, and then how it ended, if not well."""
    text = ("\n".join(lines) + "\n").encode()
    try:
        done = subprocess.run(list(map(str, program)), input=text, stdout=subprocess.PIPE, timeout=LIMIT)
    except subprocess.TimeoutExpired:
        return [ENDED + b"not at all"]
    printed = done.stdout.split(b"\n")
    if printed[-1] == b"":
        printed.pop()
    return printed if done.returncode == 0 else printed + [ENDED + b"with %d" % done.returncode]


def is_table(line):
    return line.startswith("table")


def is_wide(lines):
    return any(is_table(line) and int(line.split()[1]) > WIDE for line in lines)


def with_live(lines):
    """A list with the live table after each call."""
    shown = []
    for line in lines:
        shown.append(line)
        if not is_table(line):
            shown.append("live")
    return shown


def with_rows(lines, answers):
    """A list with the rows that a call names or makes, and those of the entries that `actions` answers, after each
    call, and the live table now and then and at the end."""
    shown, known = [], Known()
    for turn, (line, answer) in enumerate(zip(lines, answers), 1):
        shown.append(line)
        if is_table(line):
            known = Known()
            continue
        keys = [known.keys] if line.startswith("new") else named_keys(line)
        if line.startswith("actions"):
            keys = dict.fromkeys(int(entry.split()[1]) for entry in answer.split(b" | ")[1:])
        shown += [f"row {key}" for key in keys]
        if known.takes(line):
            known.add(line)
        if turn % LIVE_EVERY == 0:
            shown.append("live")
    return shown + ["live"]


def lent_exactly(shown, answers):
    """A list with as many rows and entries lent as its live tables came to show, and not one more."""
    lent = list(shown)
    at, rows, entries = 0, 0, 0
    for i, (line, answer) in enumerate(zip(shown, answers)):
        if is_table(line):
            at, rows, entries = i, 0, 0
        elif line == "live" and (state := STATE.search(answer)):
            rows, entries = max(rows, int(state[1])), max(entries, int(state[2]))
            lent[at] = f"table {rows} {entries}"
    return lent


def in_runs(shown, answers):
    """A list in which calls follow one another, and what is answered to it. Rows are left out, and the live table but
    for each RUN calls and for the end of a table."""
    kept, calls = [], 0
    for at, line in enumerate(shown):
        if line == "live":
            if calls < RUN and at + 1 < len(shown) and not is_table(shown[at + 1]):
                continue
            calls = 0
        elif line.startswith("row"):
            continue
        else:
            calls = 0 if is_table(line) else calls + 1
        kept.append(at)
    return [shown[at] for at in kept], [answers[at] for at in kept]


class Difference(typing.NamedTuple):
    shown: list  # what was asked, up to the first line that is answered differently
    meter: bytes
    oracle: bytes

    def calls(self):
        """The calls alone."""
        return [line for line in self.shown if not line.startswith(("live", "row"))]

    def last_table(self):
        """The calls from the last table on."""
        calls = self.calls()
        return calls[max(i for i, line in enumerate(calls) if is_table(line)):]


def first_difference(asked, mine, theirs):
    """The first line of a list that the two answer differently, or nothing."""
    if len(theirs) != len(asked):
        raise RuntimeError(f"the oracle answers {len(theirs)} of {len(asked)} lines")
    if mine == theirs:
        return None
    if mine[-1:] and mine[-1].startswith(ENDED):  # what it had yet to print is lost, so any line may be the cause
        return Difference(asked, mine[-1], theirs[-1])
    nothing = b"(nothing)"
    for at, (a, b) in enumerate(itertools.zip_longest(mine, theirs, fillvalue=nothing), 1):
        if a != b:
            return Difference(asked[:at], a, b)
    return None


class Pair:
    """The meter and the oracle, each a function from lines to printed lines, and whether calls are to follow one
    another in the lists."""

    def __init__(self, meter, oracle, in_runs=False):
        self.meter, self.oracle, self.in_runs = meter, oracle, in_runs
        self.in_time = True

    def ask(self, lines):
        """What a list of calls is looked at with, and what both print for it. The oracle reads over what is lent, so it
        is asked first how much that has to be."""
        if is_wide(lines):
            shown = with_rows(lines, self.oracle(lines))
            theirs = self.oracle(shown)
        else:
            shown = with_live(lines)
            theirs = self.oracle(shown)
            shown = lent_exactly(shown, theirs)
        if self.in_runs:
            shown, theirs = in_runs(shown, theirs)
        return shown, self.meter(shown), theirs

    def difference(self, lines):
        return first_difference(*self.ask(lines))

    def shortest(self, difference):
        """The shortest list that shows a difference, made of one that shows it by leaving out calls."""
        alone = self.difference(difference.last_table())
        difference = self.with_fewer(alone or difference)
        if len(difference.last_table()) == len(difference.calls()) <= FEW + 1:
            difference = self.with_fewest(difference)
        return difference

    def with_fewer(self, difference):
        """Leaves out long runs of calls first and single calls last, until none can be left out."""
        calls = named(difference.calls())
        step, end = len(calls) // 2, time.monotonic() + SECONDS
        while step and time.monotonic() < end:
            at, left_out = 1, False
            while at < len(calls) and time.monotonic() < end:
                found = self.difference(numbered(calls[:at] + calls[at + step:]))
                if found:
                    difference, calls, left_out = found, named(found.calls()), True
                else:
                    at += step
            if not left_out or step > 1:
                step //= 2
        self.in_time = step == 0
        return difference

    def with_fewest(self, difference):
        """Tries all sublists of a few calls, the shortest first, those of one length in one run."""
        table, *calls = named(difference.calls())
        for length in range(len(calls)):
            tried = [numbered([table, *some]) for some in itertools.combinations(calls, length)]
            found = self.difference([line for one in tried for line in one])
            found = found and self.difference(found.last_table())
            if found:
                return found
        return difference


class Named(typing.NamedTuple):
    """A call whose keys and token are named by the places of the calls that made them: others can then be left out."""
    place: int
    words: list
    keys: list
    token: list


class Places(Known):
    """Known, with the places of the calls that made its keys and its snapshots."""

    def __init__(self):
        super().__init__()
        self.made, self.key = [], {}  # the place of each key, the key of each place
        self.opened, self.token = {}, {}  # the place of each token, the token of each place

    def follow(self, line, place):
        self.add(line)
        if line.startswith("new"):
            self.key[place] = len(self.made)
            self.made.append(place)
        elif line == "snapshot":
            self.opened[self.serial], self.token[place] = place, self.serial
        while len(self.made) > self.keys:
            del self.key[self.made.pop()]


def named(lines):
    """The calls of a list that document 01 takes."""
    calls, known = [], Places()
    for place, line in enumerate(lines):
        name, *rest = line.split()
        if name == "table":
            known = Places()
        keys = [known.made[key] for key in named_keys(line)]
        token = [known.opened[int(rest[0])]] if name in TOKEN_CALLS else []
        calls.append(Named(place, [name] + rest[len(keys) + len(token):], keys, token))
        known.follow(line, place)
    return calls


def numbered(calls):
    """The lines of calls, without those whose key is no longer made or whose token is no longer the right one."""
    lines, known = [], Places()
    for call in calls:
        name, *rest = call.words
        if name == "table":
            known = Places()
        if all(place in known.key for place in call.keys) and all(place in known.token for place in call.token):
            numbers = [known.key[place] for place in call.keys] + [known.token[place] for place in call.token]
            line = " ".join([name, *map(str, numbers), *rest])
            if known.takes(line):
                lines.append(line)
                known.follow(line, call.place)
    return lines
