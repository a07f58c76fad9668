"""What the models of the case programs share: the text that says the cases, and the form of what is written.

A model says its lists and its calls, and hands them to `main`. A list's numbers are said one by
one, or as `n*v`, n times v, or as `n*(v w+)`, n times a group in which w is more by one each time.
"""

import sys
from collections import Counter

LARGEST = 4294967295


class Form:
    """What a list may be: how many numbers it has room for, the largest it takes, and whether it is always full."""

    def __init__(self, room, largest=LARGEST, fixed=False):
        self.room = room
        self.largest = largest
        self.fixed = fixed

    def unset(self):
        """The list before any line has set it, and after a malformed one."""
        return [0] * self.room if self.fixed else []


# The input.

class Malformed(Exception):
    """A line that says nothing the program knows."""


def number(text):
    if not text or any(letter not in "0123456789" for letter in text) or int(text) > LARGEST:
        raise Malformed
    return int(text)


def once(group, turn):
    """The numbers of a group in its turn: a number marked + is more by one at each turn."""
    numbers = []
    for word in group.split(" "):
        if word == "":
            continue
        step = turn if word.endswith("+") else 0
        numbers.append(number(word[:-1] if word.endswith("+") else word) + step)
    return numbers


def items(text):
    """The text's items as (times, group): `7` is 1 time 7, `3*7` 3 times 7, `3*(7 8+)` 3 times a group."""
    found = []
    while text.strip(" "):
        text = text.lstrip(" ")
        star = text.find("*")
        space = text.find(" ")
        if star < 0 or 0 <= space < star:
            word, _, text = text.partition(" ")
            found.append((1, word))
            continue
        times, text = number(text[:star]), text[star + 1:]
        if text.startswith("("):
            if ")" not in text:
                raise Malformed
            group, _, text = text[1:].partition(")")
            if text and not text.startswith(" "):
                raise Malformed
        else:
            group, _, text = text.partition(" ")
        found.append((times, group))
    return found


def numbers_of(form, text):
    numbers = []
    for times, group in items(text):
        if group[:1] not in list("0123456789"):
            raise Malformed
        for turn in range(times):
            said = once(group, turn)
            numbers += said
            if len(numbers) > form.room or max(said) > form.largest:
                raise Malformed
    if form.fixed and len(numbers) != form.room:
        raise Malformed
    return numbers


# The output.

def listed(numbers):
    """A list as text: equal neighbours as n*v; a long list by its length, its sum and the sum of the sums so far."""
    if not numbers:
        return "none"
    if len(numbers) > 64:
        total = sums = 0
        for value in numbers:
            total += value
            sums += total
        return f"{len(numbers)} numbers, sum {total}, sums {sums}"
    words, at = [], 0
    while at < len(numbers):
        end = at
        while end < len(numbers) and numbers[end] == numbers[at]:
            end += 1
        words.append(str(numbers[at]) if end - at == 1 else f"{end - at}*{numbers[at]}")
        at = end
    return " ".join(words)


def output(text, forms, calls, run, census):
    lists = {name: form.unset() for name, form in forms.items()}
    lines = text.split("\n")
    if lines[-1] == "":
        lines.pop()
    for line in lines:
        word, _, rest = line.partition(" ")
        if line == "" or line.startswith("#"):
            continue
        if word in calls:
            answer, told = run(word, lists)
            census[word, answer] += 1
            yield f"{line}: {told}"
            continue
        try:
            if word not in forms:
                raise Malformed
            lists[word] = forms[word].unset()
            lists[word] = numbers_of(forms[word], rest)
        except Malformed:
            yield f"malformed: {line}"


def main(forms, calls, run):
    """Writes what the program writes on this input, or with `--census` how many cases each call has for each answer.

    `forms` says the lists by name, `calls` names the calls, and `run(call, lists)` gives the kind of the answer and what
    the program writes of the case. A byte of the input is a letter here, so that any input can be read.
    """
    census = Counter()
    lines = list(output(sys.stdin.buffer.read().decode("latin-1"), forms, calls, run, census))
    if "--census" not in sys.argv[1:]:
        sys.stdout.buffer.write("".join(line + "\n" for line in lines).encode("latin-1"))
        return
    for (call, answer), cases in sorted(census.items(), key=lambda entry: (calls.index(entry[0][0]), entry[0][1])):
        print(call, answer, cases)
    print("in all", sum(census.values()))
