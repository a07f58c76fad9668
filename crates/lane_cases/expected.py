#!/usr/bin/env python3
"""The expected output of the program `lane_cases`, worked out from the rules and not from the program.

Run as `python3 expected.py < stdin > stdout`. With `--census` it writes instead how many cases
each call has for each answer. A mask is a set of lanes here, and every rule is said in the
plainest way, so that this file can be held against the rules by eye.
"""

import sys
from pathlib import Path

sys.dont_write_bytecode = True
sys.path.insert(0, str(Path(__file__).resolve().parent.parent / "case_text"))
from case_text import Form, main

FORMS = {"view": Form(5, fixed=True), "contents": Form(1100), "strip": Form(1100, largest=255),
         "rounds": Form(1, fixed=True)}
CALLS = ["cached", "refreshed", "detach"]


class Refused(Exception):
    """A check that applies."""


class ErrorByte(Exception):
    """A compare or a refresh has read an error byte."""


def lanes_of(mask):
    return {lane for lane in range(32) if mask >> lane & 1}


def mask_of(lanes):
    return sum(1 << lane for lane in lanes)


class Case:
    """One call's arguments, and the state that its steps change. No rule reads the contents."""

    def __init__(self, lists):
        self.height, self.guarded, self.retired, attached, window = lists["view"]
        self.attached = lanes_of(attached)
        self.window = lanes_of(window)
        self.strip = list(lists["strip"])
        self.lent = lists["rounds"][0]
        self.rounds = 0
        self.read = 0
        self.doing = ""

    # What the checks look at.

    def check_height(self):
        if self.height == 0 or self.height > 32:
            raise Refused(20)

    def check_view(self):
        if self.guarded != 1 or self.retired != 0 or any(lane >= self.height for lane in self.attached):
            raise Refused(21)

    def check_window(self):
        if not self.attached <= self.window:
            raise Refused(22)

    def check_strip(self):
        if len(self.strip) > 1024 or any(byte > 2 for byte in self.strip):
            raise Refused(23)

    # What the steps do.

    def next_byte(self):
        """The next byte of the strip, which is no error byte."""
        byte = self.strip[self.read] if self.read < len(self.strip) else 0
        self.read += 1
        if byte == 2:
            raise ErrorByte
        return byte

    def compare(self, lane):
        """Whether the lane was cleared."""
        if self.next_byte() == 1 or lane not in self.attached:
            return False
        self.attached.remove(lane)
        return True

    def refresh(self):
        if self.next_byte() == 1 and self.attached:
            self.attached.remove(min(self.attached))
        self.window = set(self.attached)

    # What the passes do: both go from the top lane down.

    def cached_pass(self):
        for lane in reversed(range(self.height)):
            if lane not in self.window or not self.compare(lane):
                return False
        return True

    def refreshed_pass(self):
        tried = 0
        for lane in reversed(range(self.height)):
            if lane in self.window:
                self.compare(lane)
                tried += 1
        return tried == 0

    # The calls: each gives its answer and a value, which is 1 for a yes and 0 for a no, or the rounds made.

    def cached(self):
        for check in (self.check_height, self.check_view, self.check_strip):
            check()
        return 0, int(self.cached_pass())

    def refreshed(self):
        for check in (self.check_height, self.check_view, self.check_window, self.check_strip):
            check()
        return 0, int(self.refreshed_pass())

    def detach(self):
        for check in (self.check_height, self.check_view, self.check_strip):
            check()
        self.doing = "in the cached pass"
        detached = self.cached_pass()
        while not detached:
            if self.rounds == self.lent:
                return 25, self.rounds
            self.rounds += 1
            self.doing = "in a refresh"
            self.refresh()
            self.doing = "in a refreshed pass"
            detached = self.refreshed_pass()
        self.retired = 1
        return 0, self.rounds

    def run(self, call):
        """The call's answer and its value."""
        try:
            return getattr(self, call)()
        except Refused as refused:
            return refused.args[0], 0
        except ErrorByte:
            return 24, self.rounds


def run(call, lists):
    """The kind of the answer, as the census tells it, and what is written of the case."""
    case = Case(lists)
    answer, value = case.run(call)
    kind = str(answer)
    if answer == 0 and call != "detach":
        kind += " yes" if value else " no"
    if answer == 24 and call == "detach":
        kind += f" {case.doing}"
    view = [case.height, case.guarded, case.retired, mask_of(case.attached), mask_of(case.window)]
    return kind, f"answer {answer} value {value}; view {' '.join(map(str, view))}"


main(FORMS, CALLS, run)
