#!/usr/bin/env python3
"""The expected output of the program `bucket_cases`, worked out from the rules and not from the program.

Run as `python3 expected.py < stdin > stdout`. With `--census` it writes instead how many cases
each call has for each answer. The elements are a set here, and every rule is said in the
plainest way, so that this file can be held against the rules by eye.
"""

import sys
from pathlib import Path

sys.dont_write_bytecode = True
sys.path.insert(0, str(Path(__file__).resolve().parent.parent / "case_text"))
from case_text import Form, listed, main

FORMS = {"count": Form(1, fixed=True), "input": Form(4200), "output": Form(4200), "scratch": Form(2100),
         "stamp": Form(2, fixed=True), "snapshot": Form(2, fixed=True)}
CALLS = ["sort", "bitmap", "precedes"]


class Refused(Exception):
    """A check that applies: its number, and what it names."""

    def __init__(self, answer, named):
        super().__init__()
        self.answer = answer
        self.named = named


class Case:
    """The arguments of an engine, and what it writes."""

    def __init__(self, lists):
        self.count = lists["count"][0]
        self.input = list(lists["input"])
        self.output = list(lists["output"])
        self.scratch = list(lists["scratch"])

    def needed(self):
        """How many numbers of the scratch have a bit for some bucket: the count by 32, rounded up."""
        return self.count // 32 + (1 if self.count % 32 else 0)

    # What the checks look at.

    def check_limits(self):
        if len(self.input) > 4096 or self.count > 65536:
            raise Refused(30, 0)

    def check_output(self):
        if len(self.output) < min(len(self.input), self.count):
            raise Refused(31, 0)

    def check_scratch(self):
        if len(self.scratch) < self.needed():
            raise Refused(31, 0)

    def check_elements(self):
        for element in self.input:
            if not element < self.count:
                raise Refused(32, element)

    # What the engines write.

    def write_output(self):
        """How many distinct elements there are."""
        distinct = sorted(set(self.input))
        self.output[:len(distinct)] = distinct
        return len(distinct)

    def write_scratch(self):
        members = set(self.input)
        for place in range(self.needed()):
            self.scratch[place] = sum(1 << bit for bit in range(32) if 32 * place + bit in members)

    # The engines: each gives its answer and what that names.

    def sort(self):
        for check in (self.check_limits, self.check_output, self.check_elements):
            check()
        return 0, self.write_output()

    def bitmap(self):
        for check in (self.check_limits, self.check_output, self.check_scratch, self.check_elements):
            check()
        self.write_scratch()
        return 0, self.write_output()

    def run(self, call):
        """The call's answer and what it names."""
        try:
            return getattr(self, call)()
        except Refused as refused:
            return refused.answer, refused.named


def joined(halves):
    high, low = halves
    return high * 2 ** 32 + low


def run(call, lists):
    """The kind of the answer, as the census tells it, and what is written of the case."""
    if call == "precedes":
        told = "yes" if joined(lists["stamp"]) < joined(lists["snapshot"]) else "no"
        return told, told
    case = Case(lists)
    answer, named = case.run(call)
    told = f"answer {answer} named {named}; output {listed(case.output)}"
    if call == "bitmap":
        told += f"; scratch {listed(case.scratch)}"
    return str(answer), told


main(FORMS, CALLS, run)
