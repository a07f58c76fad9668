#!/usr/bin/env python3
"""The expected output of the program `cases`, worked out from the rules and not from the program.

Run as `python3 expected.py < stdin > stdout`. With `--census` it writes instead how many cases
each call has for each answer. A table is a set of postings here, and every rule is said in the
plainest way, so that this file can be held against the rules by eye.
"""

import sys
from pathlib import Path

sys.dont_write_bytecode = True
sys.path.insert(0, str(Path(__file__).resolve().parent.parent / "case_text"))
from case_text import Form, listed, main

FORMS = {"head": Form(3, fixed=True), "ask": Form(2, fixed=True), "changes": Form(1600), "guards": Form(2100),
         "strip": Form(1100, largest=255), "record": Form(300), "table": Form(12300)}
CALLS = ["prepare", "rollback", "removal", "publish", "count"]


class Refused(Exception):
    """A check that applies: its number, and what it names."""

    def __init__(self, answer, *named):
        super().__init__()
        self.answer = answer
        self.named = named or (0,)


class Change:
    def __init__(self, binding, row, before_flag, before_key, after_flag, after_key):
        self.binding = binding
        self.proper = all(flag == 1 or (flag == 0 and key == 0)
                          for flag, key in ((before_flag, before_key), (after_flag, after_key)))
        self.source = (binding, before_key, row) if before_flag else None
        self.destination = (binding, after_key, row) if after_flag else None


class Case:
    """One call's arguments, and the state that its steps change."""

    def __init__(self, lists):
        self.bindings, self.used, self.flag = lists["head"]
        self.table = list(lists["table"])
        self.numbers = list(lists["changes"])
        self.guards = list(lists["guards"])
        self.strip = list(lists["strip"])
        self.record = list(lists["record"])
        self.ask = lists["ask"]
        self.read = 0

    # What the checks look at.

    def check_table(self):
        capacity = len(self.table) // 3
        good = len(self.table) % 3 == 0 and len(self.table) <= 12288 and self.bindings <= 64
        good = good and self.flag in (0, 1) and self.used <= capacity
        if good:
            triples = [tuple(self.table[3 * i:3 * i + 3]) for i in range(capacity)]
            postings, rest = triples[:self.used], triples[self.used:]
            good = (postings == sorted(set(postings)) and all(p[0] < self.bindings for p in postings)
                    and all(p == (0, 0, 0) for p in rest))
        if not good:
            raise Refused(1)
        self.postings = set(postings)
        self.capacity = capacity

    def check_poison(self):
        if self.flag == 1:
            raise Refused(2)

    def check_lists(self):
        if len(self.numbers) % 6 or len(self.numbers) > 6 * 256:
            raise Refused(3)
        if len(self.guards) % 2 or len(self.guards) > 2 * 1024:
            raise Refused(3)
        self.changes = [Change(*self.numbers[i:i + 6]) for i in range(0, len(self.numbers), 6)]
        if not all(change.proper for change in self.changes):
            raise Refused(3)
        self.held = {tuple(self.guards[i:i + 2]) for i in range(0, len(self.guards), 2)}

    def check_strip(self):
        if len(self.strip) > 1024 or any(byte > 2 for byte in self.strip):
            raise Refused(4)

    def check_room(self):
        if len(self.record) < len(self.changes):
            raise Refused(5)

    def check_guards(self):
        for i, change in enumerate(self.changes):
            named = [posting for posting in (change.source, change.destination) if posting]
            if change.binding >= self.bindings or any(posting[:2] not in self.held for posting in named):
                raise Refused(6, i)

    def check_record(self):
        for place, i in enumerate(self.record):
            if i >= len(self.changes) or not self.changes[i].destination or i in self.record[:place]:
                raise Refused(14, place)

    def check_twice(self):
        for j in range(len(self.changes)):
            for i in range(j):
                if self.changes[i].destination and self.changes[i].destination == self.changes[j].destination:
                    raise Refused(7, i, j)

    def check_present(self):
        for i, change in enumerate(self.changes):
            if change.destination in self.postings:
                raise Refused(8, i)

    def check_overlap(self):
        destinations = {change.destination for change in self.changes if change.destination}
        for i, change in enumerate(self.changes):
            if change.source in destinations:
                raise Refused(9, i)

    # What the steps do.

    def next_byte(self):
        byte = self.strip[self.read] if self.read < len(self.strip) else 0
        self.read += 1
        return byte

    def insert(self, posting):
        """0 where the posting was put in, else the number that a clean undo gives."""
        if self.next_byte() != 0:
            return 10
        if len(self.postings) == self.capacity:
            return 11
        self.postings.add(posting)
        return 0

    def remove(self, posting):
        """Whether the removal was no failure."""
        byte = self.next_byte()
        if byte != 1:
            self.postings.discard(posting)
        return byte == 0

    def undo(self, record):
        """The change of the last removal to fail, going from the end of the record; None if none failed."""
        last = None
        for i in reversed(record):
            if not self.remove(self.changes[i].destination):
                last = i
        return last

    def bring(self):
        """Puts every destination in and writes the record, or takes back what was put in."""
        inserted = []
        for i, change in enumerate(self.changes):
            if not change.destination:
                continue
            failure = self.insert(change.destination)
            if failure and self.undo(inserted) is None:
                return failure, i
            if failure:
                return self.poison(12, i)
            inserted.append(i)
        self.record[:len(inserted)] = inserted
        return 0, len(inserted)

    def take(self):
        """Removes the sources up the list as far as the first failure."""
        for i, change in enumerate(self.changes):
            if change.source and not self.remove(change.source):
                return self.poison(13, i)
        return 0, 0

    def poison(self, answer, named):
        self.flag = 1
        return answer, named

    # The calls.

    def prepare(self):
        for check in (self.check_table, self.check_poison, self.check_lists, self.check_strip, self.check_room,
                      self.check_guards, self.check_twice, self.check_present):
            check()
        return self.bring()

    def rollback(self):
        for check in (self.check_table, self.check_poison, self.check_lists, self.check_strip,
                      self.check_guards, self.check_record):
            check()
        last = self.undo(self.record)
        return (0, 0) if last is None else self.poison(12, last)

    def removal(self):
        for check in (self.check_table, self.check_poison, self.check_lists, self.check_strip, self.check_guards):
            check()
        return self.take()

    def publish(self):
        for check in (self.check_table, self.check_poison, self.check_lists, self.check_strip, self.check_room,
                      self.check_guards, self.check_twice, self.check_present, self.check_overlap):
            check()
        prepared = self.bring()
        if prepared[0]:
            return prepared
        removed = self.take()
        return removed if removed[0] else prepared

    def count(self):
        self.check_table()
        self.check_poison()
        binding, key = self.ask
        if binding >= self.bindings:
            raise Refused(6)
        return 0, sum(posting[:2] == (binding, key) for posting in self.postings)

    def run(self, call):
        """The call's answer and the values it names; the table is then written anew from its postings."""
        try:
            answer, named = getattr(self, call)()
        except Refused as refused:
            return refused.answer, refused.named
        flat = [value for posting in sorted(self.postings) for value in posting]
        self.used = len(self.postings)
        self.table = flat + [0] * (len(self.table) - len(flat))
        return answer, (named,)


def run(call, lists):
    """The answer, and what is written of the case."""
    case = Case(lists)
    answer, named = case.run(call)
    told = f"answer {answer} names {' '.join(map(str, named))}"
    if call != "count":
        told += f"; head {case.bindings} {case.used} {case.flag}; table {listed(case.table)}"
    if call in ("prepare", "publish"):
        told += f"; record {listed(case.record)}"
    return answer, told


main(FORMS, CALLS, run)
