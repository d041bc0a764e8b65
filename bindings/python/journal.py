"""A day's journal in a file, for bindings/test, which has one language write it and another replay it.

    journal.py write FILE     carries out a day's calls, writes their journal, prints the groups
    journal.py replay FILE    replays it into a fresh meter, prints the groups
"""

import random
import sys
from pathlib import Path

from meter import COMMIT, FIND, JOIN, LOG_LIMIT, NEW, POST, ROLLBACK, SNAPSHOT, Journal, Meter

ROWS = 60


def show(meter):
    print(f"{len(meter)} keys, {meter.num_open_snapshots} open")
    for key in range(len(meter)):
        root, value = meter.probe_key_value(key)
        print(key, root, meter.row(root).rank, value.owner, value.amount)


def write(file):
    choose, tokens = random.Random(2), [0]
    meter, journal = Meter(ROWS, 10_000), Journal()
    for _ in range(9_000):
        a, b, owner, amount = (choose.randrange(limit) for limit in (ROWS, ROWS, 3, 1 << 50))
        call = choose.choice((
            (NEW, owner, amount, 0), (JOIN, a, b, 0), (POST, a, owner, amount), (POST, b, owner, amount),
            (FIND, b, 0, 0), (SNAPSHOT, 0, 0, 0), (ROLLBACK, tokens[-1], 0, 0), (COMMIT, tokens[-1], 0, 0),
        ))  # fmt: skip
        (answer,) = meter.record(journal, [call])
        if answer.token:
            tokens.append(answer.token)
        elif call[0] in (ROLLBACK, COMMIT) and answer.no == 0:
            tokens.pop()
    Path(file).write_bytes(bytes(journal))
    show(meter)


def replay(file):
    journal = Journal.from_bytes(Path(file).read_bytes())
    meter = Meter(ROWS, min(32 * len(journal), LOG_LIMIT))
    journal.replay(meter)
    show(meter)


commands = {"write": write, "replay": replay}
if len(sys.argv) != 3 or sys.argv[1] not in commands:
    sys.exit("usage: journal.py write|replay FILE")
commands[sys.argv[1]](sys.argv[2])
