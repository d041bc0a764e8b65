"""Tests of meter.py. Answers are worked out by hand from document 01 and CALLS.md. The last line of a run is
'N passed, M failed'."""

import doctest
import random
import sys
import unittest

import meter
from meter import (ACTIONS, CHANGES, COMMIT, FIND, JOIN, KEYS, LEN, NEW, POST, PROBE, PROBE_KEY, ROLLBACK, SNAPSHOT,
                   TRY_PROBE, UNIONED, Answer, BadJournal, Journal, Meter, NewElem, NoRoom, NotCarriedOut, Row, SetElem,
                   Stopped, Value, entry_commit, entry_join, entry_new, entry_post, entry_rollback,
                   entry_snapshot)  # fmt: skip

MAX = 2**64 - 1


def table_t(log=0):
    """Document 01's T: amounts 1, 2, 4, 8 and no owner, then join(0,1), join(2,3), join(0,2)."""
    table = Meter(8, log)
    for amount in (1, 2, 4, 8):
        table.new_key(amount=amount)
    for a, b in ((0, 1), (2, 3), (0, 2)):
        table.unify_var_var(a, b)
    return table


def rows(table):
    return [table.row(key) for key in range(len(table))]


def refusal(no, steps=0):
    return Answer(no, 0, 0, 0, 0, steps, 0, 0, 0)


def done(key=0, steps=0):
    return Answer(0, key, 0, 0, 0, steps, 0, 0, 0)


class Examples(unittest.TestCase):
    """Document 01's examples, by their numbers."""

    def test_1_first_join(self):
        table = Meter(2, 0)
        self.assertEqual([table.new_key(amount=1), table.new_key(amount=2)], [0, 1])
        table.unify_var_var(0, 1)
        self.assertEqual([table.row(0), table.row(1)], [Row(1, 0, 0, 1), Row(1, 1, 0, 3)])

    def test_2_table_t(self):
        table = table_t()
        self.assertEqual([table.row(key).parent for key in range(4)], [1, 3, 3, 3])
        self.assertEqual(table.row(3), Row(3, 2, 0, 15))

    def test_3_find_compresses(self):
        table = table_t()
        self.assertEqual(table.call(FIND, 0), done(key=3, steps=2))
        self.assertEqual(table.row(0).parent, 3)
        self.assertEqual(table.call(FIND, 0), done(key=3, steps=1))

    def test_4_join_of_equal_roots(self):
        table = table_t()
        self.assertEqual(table.call(JOIN, 0, 0), done(steps=3))
        self.assertEqual(table.probe_value(0), Value(0, 15))

    def test_5_find_in_a_snapshot(self):
        table = table_t(log=4)
        token = table.snapshot()
        table.find(0)
        self.assertEqual(table.actions_since_snapshot(token), [SetElem(0, Row(1, 0, 0, 1))])
        table.rollback_to(token)
        self.assertEqual(table.row(0).parent, 1)

    def test_6_log_full(self):
        table = table_t()
        table.snapshot()
        with self.assertRaises(meter.LogFull):
            table.find(0)
        self.assertEqual(table.row(0).parent, 1)
        self.assertEqual(table.find(1), 3)

    def test_7_owner_clash(self):
        table = table_t()
        table.unify_var_value(3, owner=9)
        table.new_key(owner=7)
        self.assertEqual(table.call(JOIN, 0, 4), refusal(4, steps=2))
        self.assertEqual(table.row(0).parent, 3)

    def test_8_and_9_exact_sums(self):
        table = Meter(4, 0)
        for amount in (2**32 - 1, 1, MAX, 1):
            table.new_key(amount=amount)
        table.unify_var_var(0, 1)
        self.assertEqual(table.probe_value(0).amount, 2**32)
        with self.assertRaises(meter.TooMuch):
            table.unify_var_var(2, 3)

    def test_10_nested_snapshots(self):
        table = Meter(1, 4)
        table.new_key(owner=9, amount=5)
        s1, s2 = table.snapshot(), table.snapshot()
        table.unify_var_value(0, owner=9, amount=7)
        table.commit(s2)
        self.assertEqual(table.probe_value(0), Value(9, 12))
        table.rollback_to(s1)
        self.assertEqual(table.probe_value(0), Value(9, 5))

    def test_11_and_12_tokens_out_of_order(self):
        table = Meter(1, 1)
        s1, s2 = table.snapshot(), table.snapshot()
        self.assertRaises(meter.NotInnermost, table.rollback_to, s1)
        table.rollback_to(s2)
        table.rollback_to(s1)
        table.snapshot()
        self.assertRaises(meter.NotInnermost, table.rollback_to, s1)

    def test_13_empty_table(self):
        self.assertRaises(meter.NoKey, Meter(0, 0).find, 0)

    def test_14_room_for_a_join(self):
        for room, no in ((2, 0), (1, 3)):
            table = Meter(2, room)
            answers = table.run([(NEW, 0, 1, 0), (NEW, 0, 2, 0), (SNAPSHOT, 0, 0, 0), (JOIN, 0, 1, 0)])
            self.assertEqual(answers[3].no, no)

    def test_15_at_the_limits(self):
        keys = meter.ROWS_LIMIT
        table = Meter(keys, 0)
        table.run([(NEW, 0, 1, 0)] * keys)
        half = 1
        while half < keys:
            table.run([(JOIN, i + half - 1, i + 2 * half - 1, 0) for i in range(0, keys, 2 * half)])
            half *= 2
        self.assertEqual(table.row(keys - 1), Row(keys - 1, 16, 0, keys))
        self.assertEqual(table.call(FIND, 0), done(key=keys - 1, steps=16))
        for _ in range(meter.SNAPSHOTS_LIMIT):
            table.snapshot()
        self.assertRaises(meter.TooDeep, table.snapshot)


class Methods(unittest.TestCase):
    def test_probes(self):
        table = table_t()
        table.new_key(owner=7, amount=100)
        self.assertEqual(len(table), 5)
        self.assertEqual(table.probe_key_value(0), (3, Value(0, 15)))
        self.assertEqual(table.try_probe_value(4), Value(7, 100))
        self.assertIsNone(table.try_probe_value(0))
        self.assertIs(table.unioned(0, 2), True)
        self.assertIs(table.unioned(0, 4), False)

    def test_since_a_snapshot(self):
        table = table_t(log=8)
        outer = table.snapshot()
        self.assertIs(table.has_changes(outer), False)
        table.new_key(owner=3, amount=30)
        inner = table.snapshot()
        table.new_key(amount=40)
        self.assertEqual(table.vars_since_snapshot(outer), range(4, 6))
        self.assertEqual(table.vars_since_snapshot(inner), range(5, 6))
        self.assertEqual(table.actions_since_snapshot(outer), [NewElem(4), NewElem(5)])
        self.assertIs(table.has_changes(inner), True)
        self.assertEqual((table.num_open_snapshots, table.in_snapshot), (2, True))
        table.rollback_to(inner)
        table.commit(outer)
        self.assertEqual((len(table), table.in_snapshot), (5, False))

    def test_a_logged_amount_is_whole(self):
        table = Meter(1, 1)
        table.new_key(amount=MAX - 1)
        token = table.snapshot()
        table.unify_var_value(0, amount=1)
        self.assertEqual(table.actions_since_snapshot(token), [SetElem(0, Row(0, 0, 0, MAX - 1))])
        table.rollback_to(token)
        self.assertEqual(table.probe_value(0).amount, MAX - 1)

    def test_module_example(self):
        self.assertEqual(doctest.testmod(meter, verbose=False).failed, 0)


class Refusals(unittest.TestCase):
    def test_names_and_numbers_are_document_01s(self):
        names = "NO_KEY KEYS_FULL LOG_FULL OWNER_CLASH TOO_MUCH NOT_INNERMOST TOO_DEEP BROKEN_TABLE BAD_STATE"
        names += " SERIALS_SPENT NOT_OPEN"
        self.assertEqual([meter.REFUSALS[no].name for no in range(1, 12)], names.split())
        self.assertEqual(str(meter.NoKey()), "NO_KEY (1): a named key is not below the count")

    def test_keys_and_tokens_that_are_not_there(self):
        table = Meter(2, 2)
        table.new_key()
        table.new_key()
        for code in (FIND, PROBE, PROBE_KEY, TRY_PROBE):
            self.assertEqual(table.call(code, 2), refusal(1))
        for code in (UNIONED, JOIN):
            self.assertEqual(table.call(code, 0, 2), refusal(1))
        self.assertEqual(table.call(POST, 2, 1, 1), refusal(1))
        for code in (KEYS, ACTIONS, CHANGES):
            self.assertEqual(table.call(code, 1), refusal(11))
        for code in (ROLLBACK, COMMIT):
            self.assertEqual(table.call(code, 1), refusal(6))
        self.assertRaises(meter.KeysFull, table.new_key)
        self.assertRaises(meter.NoKey, table.row, 2)

    def test_above_the_limits(self):
        for rows, log in ((meter.ROWS_LIMIT + 1, 0), (0, meter.LOG_LIMIT + 1), (-1, 0)):
            self.assertRaises(meter.BadState, Meter, rows, log)

    def test_numbers_that_are_no_call(self):
        table = table_t()
        for call in ((15, 0, 0, 0), (FIND, 2**32, 0, 0), (NEW, 2**32, 0, 0), (LEN, 0, 0, 1), (FIND, -1, 0, 0),
                     (POST, 0, 0, 2**64), (MAX, 0, 0, 0)):  # fmt: skip
            for carry_out in (lambda: table.call(*call), lambda: table.run([(NEW, 0, 1, 0), call])):
                with self.assertRaises(NotCarriedOut) as caught:
                    carry_out()
                self.assertEqual((caught.exception.number, caught.exception.name), (2, "NO_CALL"))
        self.assertRaises(NotCarriedOut, table.run, [(NEW, 0, 1)])
        self.assertEqual(len(table), 4)


class Lists(unittest.TestCase):
    def test_a_list_is_its_calls_one_by_one(self):
        choose = random.Random(1)
        singly, together = Meter(24, 40), Meter(24, 40)
        calls, answers, last = [], [], 0
        for _ in range(3000):
            key, other, token = choose.randrange(26), choose.randrange(26), max(0, last - choose.choice((0, 0, 0, 1)))
            call = choose.choice((
                (NEW, choose.randrange(3), choose.randrange(100), 0), (LEN, 0, 0, 0), (FIND, key, 0, 0),
                (UNIONED, key, other, 0), (JOIN, key, other, 0),
                (POST, key, choose.randrange(3), choose.randrange(100)), (PROBE, key, 0, 0),
                (PROBE_KEY, key, 0, 0), (TRY_PROBE, key, 0, 0), (SNAPSHOT, 0, 0, 0), (ROLLBACK, token, 0, 0),
                (COMMIT, token, 0, 0), (KEYS, token, 0, 0), (ACTIONS, token, 0, 0), (CHANGES, token, 0, 0),
            ))  # fmt: skip
            calls.append(call)
            answers.append(singly.call(*call))
            last = answers[-1].token or last
        self.assertEqual(together.run(calls), answers)
        self.assertEqual(rows(together), rows(singly))
        self.assertLessEqual({0, 1, 2, 3, 4, 6, 11}, {answer.no for answer in answers})

    def test_an_empty_list(self):
        self.assertEqual(table_t().run([]), [])


def a_day(table, journal, calls, seed):
    """Calls of several kinds on 40 keys, each recorded with another that isn't written. How many were written."""
    choose, tokens, written = random.Random(seed), [0], 0
    for _ in range(calls):
        a, b, owner, amount = (choose.randrange(limit) for limit in (40, 40, 3, 1000))
        call = choose.choice((
            (NEW, owner, amount, 0), (JOIN, a, b, 0), (POST, a, owner, amount), (POST, b, owner, amount),
            (FIND, a, 0, 0), (SNAPSHOT, 0, 0, 0), (ROLLBACK, tokens[-1], 0, 0), (COMMIT, tokens[-1], 0, 0),
        ))  # fmt: skip
        answer, _ = table.record(journal, [call, (LEN, 0, 0, 0)])
        if answer.token:
            tokens.append(answer.token)
        elif call[0] in (ROLLBACK, COMMIT) and answer.no == 0:
            tokens.pop()
        written += answer.no == 0 and call[0] != FIND
    return written


def groups(table):
    """What a replay must give again: each key's root, the root's rank and the group's value."""
    found = [table.probe_key_value(key) for key in range(len(table))]
    return [(root, table.row(root).rank, value) for root, value in found]


class Journals(unittest.TestCase):
    def test_a_day_is_replayed(self):
        for seed in range(5):
            table, journal = Meter(40, 9000), Journal()
            written = a_day(table, journal, 6000, seed)
            self.assertEqual((len(journal), journal.segments, journal.waiting),
                             (written, written // 2048, written % 2048))  # fmt: skip
            night = Meter(40, min(32 * written, meter.LOG_LIMIT))
            self.assertEqual(journal.replay(night), written)
            self.assertEqual(groups(night), groups(table))
            self.assertEqual(night.num_open_snapshots, table.num_open_snapshots)
            again = Journal.from_bytes(bytes(journal))
            self.assertEqual((len(again), again.segments, again.num_open_snapshots, bytes(again)),
                             (written, journal.segments, table.num_open_snapshots, bytes(journal)))  # fmt: skip

    def test_a_journal_is_gone_on_with(self):
        table, journal = Meter(40, 9000), Journal()
        a_day(table, journal, 500, 1)
        journal = Journal.from_bytes(bytes(journal))
        a_day(table, journal, 500, 2)
        night = Meter(40, meter.LOG_LIMIT)
        self.assertEqual(night.replay(journal), len(journal))
        self.assertEqual(groups(night), groups(table))

    def test_bytes(self):
        table, journal = Meter(2, 2), Journal()
        table.record(journal, [(NEW, 7, 300, 0), (JOIN, 0, 0, 0), (SNAPSHOT, 0, 0, 0)])
        table.record(journal, [(FIND, 0, 0, 0), (JOIN, 0, 1, 0)])  # a question, and NO_KEY
        self.assertEqual((len(journal), journal.waiting, journal.segments, journal.num_open_snapshots), (3, 3, 0, 1))
        wanted = entry_new(7, 300) + entry_join(0, 0) + entry_snapshot() + bytes([72, 0, 0, 0, 3, 0, 0, 0, 0, 0, 0, 0])
        self.assertEqual(bytes(journal), wanted)
        self.assertEqual((len(journal), journal.waiting, journal.segments), (3, 0, 1))
        self.assertEqual(entry_post(258, 3, MAX), bytes([2, 0, 0, 0, 2, 1, 0, 0, 0, 0, 0, 0, 3, 0, 0, 0] + 8 * [255]))

    def test_appends(self):
        journal = Journal()
        for entries in ([], [entry_commit()], [entry_new()] * 2049, b"?", bytes(24)):
            self.assertRaises(BadJournal, journal.append, entries)
        self.assertEqual(bytes(journal), b"")
        journal.append([entry_new(7, 1), entry_snapshot()])
        self.assertRaises(BadJournal, journal.append, [entry_snapshot()] * 32)
        journal.append([entry_snapshot()] * 31)
        journal.append([entry_commit(), entry_rollback()])
        self.assertEqual((len(journal), journal.segments, journal.num_open_snapshots), (35, 3, 30))
        self.assertRaises(BadJournal, entry_new, 2**32)
        self.assertRaises(BadJournal, entry_post, 0, 0, 2**64)

    def test_an_append_behind_entries_that_wait(self):
        table, journal = Meter(2, 0), Journal()
        table.record(journal, [(NEW, 7, 1, 0)])
        journal.append([entry_post(0, 7, 2)])
        self.assertEqual((len(journal), journal.segments), (2, 2))
        journal.replay(night := Meter(2, 0))
        self.assertEqual(night.probe_value(0), Value(7, 3))

    def test_a_limit(self):
        table, journal = Meter(4, 0), Journal(limit=71)
        answers = table.record(journal, [(NEW, 7, 1, 0)] * 3)
        self.assertEqual([answer.no for answer in answers], [0, 0, NoRoom.number])
        self.assertEqual((len(table), len(journal)), (2, 2))
        self.assertRaises(NoRoom, journal.append, [entry_new()])
        self.assertEqual(len(bytes(journal)), 60)

    def test_a_journal_of_another_meter(self):
        table, journal = Meter(4, 4), Journal()
        token = table.snapshot()  # not recorded
        answers = table.record(journal, [(NEW, 7, 1, 0), (ROLLBACK, token, 0, 0), (LEN, 0, 0, 0)])
        self.assertEqual([answer.no for answer in answers], [12, 12, 0])
        self.assertEqual((len(table), table.num_open_snapshots, len(journal)), (0, 1, 0))

    def test_what_is_no_journal(self):
        journal = Journal()
        journal.append([entry_new(7, 1), entry_snapshot()])
        journal.append([entry_commit()])
        data, table = bytes(journal), Meter(4, 4)
        for short in set(range(1, len(data))) - {60}:
            self.assertRaises(BadJournal, Journal.from_bytes, data[:short])
            self.assertRaises(BadJournal, table.replay, data[:short])
        self.assertEqual((len(table), table.replay(data)), (0, 3))
        self.assertEqual(len(Journal.from_bytes(b"")), 0)

    def test_a_replay_names_where_it_stops(self):
        journal, table = Journal(), Meter(4, 0)
        journal.append([entry_new(7, 1), entry_new(8, 1)])
        journal.append([entry_join(0, 1), entry_new()])
        with self.assertRaises(Stopped) as caught:
            journal.replay(table)
        self.assertEqual((caught.exception.entry, caught.exception.refusal.name), (2, "OWNER_CLASH"))
        self.assertEqual(str(caught.exception), "entry 2: OWNER_CLASH (4): the merge of two different named owners")
        self.assertEqual(len(table), 2)

    def test_numbers_that_are_no_call(self):
        table, journal = Meter(4, 0), Journal()
        for call in ((15, 0, 0, 0), (NEW, 0, 1), (POST, 0, 0, 2**64)):
            self.assertRaises(NotCarriedOut, table.record, journal, [(NEW, 0, 1, 0), call])
        self.assertEqual((len(table), len(journal)), (0, 0))


if __name__ == "__main__":
    result = unittest.main(exit=False).result
    failed = len(result.failures) + len(result.errors)
    sys.stderr.flush()
    print(f"{result.testsRun - failed} passed, {failed} failed")
    sys.exit(failed != 0)
