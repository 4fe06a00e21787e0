#!/usr/bin/env python3
"""The cases of fitness_cases and what is expected of them, from document 01's words on fit tables and fit sessions
and the layout in docs/FORMAT.md.

Run by hand, and not by the gate:  python3 tests/fitness/reference.py  (Python 3.9 or later)
It writes crates/fitness_cases/stdin and stdout. It shares no code with the product: a table is taken apart into
lists, and every way from a process's start is followed with its own number of operands.

A line of stdin has 29 bytes: a letter, a space, five digits, a space, twenty digits and LF.
  w PLACE VALUE   puts VALUE at PLACE of the table's words
  v PLACE VALUE   puts VALUE at PLACE of the session's words
  r PLACE COUNT   puts the word at PLACE of the table also into the next COUNT places
  t LENGTH 0      are the first LENGTH words a fit table: a line `fit` or `unfit`
  s LENGTH 0      are the first LENGTH words of the session fit for the table: `fit` or `unfit`, or `no table`
"""
import pathlib
import random

TABLE_WORDS, SESSION_WORDS = 8387, 1154
TABLE_ROOM, SESSION_ROOM = 8400, 1160
LONGEST = 10**18
NAME, LITERAL, NOT, AND, OR, NAND, NOR, XOR, XNOR, ASSIGN, TEST, SKIP = range(12)
TAKES = {NAME: 0, LITERAL: 0, NOT: 1, ASSIGN: 1, TEST: 1, SKIP: 0, **{k: 2 for k in range(AND, XNOR + 1)}}
LEAVES = {NAME: 1, LITERAL: 1, NOT: 1, ASSIGN: 0, TEST: 0, SKIP: 0, **{k: 1 for k in range(AND, XNOR + 1)}}


class Unfit(Exception):
    pass


def need(fact):
    if not fact:
        raise Unfit


# ---- the rules


def column(words, start, room, used):
    """The words in use; unused places are zero."""
    part = words[start : start + room]
    need(not any(part[used:]))
    return part[:used]


def operands(code, start, end):
    """Every way from the start to an instruction arrives with one same number of operands."""
    arrives = {}
    ways = [(start, 0)]
    while ways:
        x, held = ways.pop()
        need(held <= 34)
        if x in arrives:
            need(arrives[x] == held)
            continue
        arrives[x] = held
        if x == end:
            need(held == 0)
            continue
        kind, about, _ = code[x]
        need(held >= TAKES[kind])
        left = held - TAKES[kind] + LEAVES[kind]
        if kind != SKIP:
            ways.append((x + 1, left))
        if kind in (TEST, SKIP):
            ways.append((about, left))


def read_table(words):
    need(len(words) >= TABLE_WORDS)
    signals, processes, instructions = words[:3]
    need(signals <= 64 and processes <= 64 and instructions <= 4096)
    initial = column(words, 3, 64, signals)
    need(all(v in (0, 1) for v in initial))
    wakes = column(words, 67, 64, signals)
    need(all(w >> processes == 0 for w in wakes))
    ends = column(words, 131, 64, processes)
    operations = column(words, 195, 4096, instructions)
    delays = column(words, 4291, 4096, instructions)
    code = [(o % 16, o // 16, d) for o, d in zip(operations, delays)]
    starts = [0] + ends
    need(starts[-1] == instructions and all(a <= b for a, b in zip(starts, ends)))
    drivers = {}
    for p, (start, end) in enumerate(zip(starts, ends)):
        for x in range(start, end):
            kind, about, delay = code[x]
            need(kind <= SKIP)
            if kind in (NAME, ASSIGN):
                need(about < signals)
            elif kind == LITERAL:
                need(about <= 1)
            elif kind in (TEST, SKIP):
                need(x < about <= end)
            else:
                need(about == 0)
            need(delay <= LONGEST if kind == ASSIGN else delay == 0)
            if kind == ASSIGN:
                need(drivers.setdefault(about, p) == p)
        operands(code, start, end)
    return signals, drivers


def read_session(table, words):
    signals, drivers = read_table(table)
    need(len(words) >= SESSION_WORDS)
    need(words[0] == signals)
    time = words[1]
    need(time <= LONGEST)
    need(all(v in (0, 1) for v in column(words, 2, 64, signals)))
    counts = column(words, 66, 64, signals)
    for k in range(64):
        count = counts[k] if k < signals else 0
        need(count <= 16)
        need(count == 0 or k in drivers)
        times = [w // 2 for w in column(words, 130 + 16 * k, 16, count)]
        need(all(time < t <= time + LONGEST for t in times))
        need(all(a < b for a, b in zip(times, times[1:])))


def verdict(read, *words):
    try:
        read(*words)
        return "fit"
    except Unfit:
        return "unfit"


# ---- the cases


class Cases:
    def __init__(self):
        self.table = [0] * TABLE_ROOM
        self.session = [0] * SESSION_ROOM
        self.stdin = []
        self.stdout = []

    def line(self, letter, place, value):
        self.stdin.append(f"{letter} {place:05d} {value:020d}\n")

    def set_table(self, words):
        place = 0
        while place < TABLE_ROOM:
            if self.table[place] == words[place]:
                place += 1
                continue
            same = 1
            while place + same < TABLE_ROOM and words[place + same] == words[place]:
                same += 1
            self.line("w", place, words[place])
            if same > 1:
                self.line("r", place, same - 1)
            place += same
        self.table = list(words)

    def set_session(self, words):
        for place in range(SESSION_ROOM):
            if self.session[place] != words[place]:
                self.line("v", place, words[place])
        self.session = list(words)

    def ask_table(self, words, expected=None, length=TABLE_ROOM):
        self.set_table(words)
        self.line("t", length, 0)
        got = verdict(read_table, words[:length])
        assert expected in (None, got), (expected, got, len(self.stdout))
        self.stdout.append(got + "\n")

    def ask_session(self, table, words, expected=None, length=SESSION_ROOM):
        self.set_table(table)
        self.set_session(words)
        self.line("s", length, 0)
        got = "no table" if verdict(read_table, table) == "unfit" else verdict(read_session, table, words[:length])
        assert expected in (None, got), (expected, got, len(self.stdout))
        self.stdout.append(got + "\n")


def table(signals, processes, initial=(), wakes=()):
    """A table of processes, each a list of (kind, about, delay)."""
    words = [0] * TABLE_ROOM
    code = [i for p in processes for i in p]
    words[0], words[1], words[2] = signals, len(processes), len(code)
    for k, v in enumerate(initial):
        words[3 + k] = v
    for k, w in enumerate(wakes):
        words[67 + k] = w
    end = 0
    for p, instructions in enumerate(processes):
        end += len(instructions)
        words[131 + p] = end
    for x, (kind, about, delay) in enumerate(code):
        words[195 + x] = kind + 16 * about
        words[4291 + x] = delay
    return words


def edited(words, *edits):
    words = list(words)
    for place, value in edits:
        words[place] = value
    return words


def name(k):
    return (NAME, k, 0)


def post(k, delay=0):
    return (ASSIGN, k, delay)


def op(kind):
    return (kind, 0, 0)


YES, NO = (LITERAL, 1, 0), (LITERAL, 0, 0)
PAIR = table(2, [[name(0), op(NOT), post(0, 3000000)], [name(0), op(NOT), post(1)]], wakes=[3, 0])
EMPTY = table(0, [])
# if q then q <= true; else q <= false after 7 fs; end if; and behind it d <= q nand d;
BRANCH = table(
    2,
    [[name(0), (TEST, 5, 0), YES, post(0), (SKIP, 7, 0), NO, post(0, 7), name(0), name(1), op(NAND), post(1)]],
    initial=[1, 0],
    wakes=[1, 1],
)
FULL = table(
    64,
    [[name(63 - k), post(k, k)] for k in range(64)],
    initial=[k % 2 for k in range(64)],
    wakes=[2**64 - 1 - 2**k for k in range(64)],
)
LONG = table(1, [[YES] + [op(NOT)] * 4094 + [post(0)]])


def deep(n):
    """n names are pushed and joined."""
    return table(1, [[name(0)] * n + [op(XOR)] * (n - 1) + [post(0)]])


def tables(c):
    for words in (EMPTY, PAIR, BRANCH, FULL, LONG, deep(1), deep(34)):
        c.ask_table(words, "fit")
    c.ask_table(deep(35), "unfit")
    # lengths; what stands behind is not read
    c.ask_table(PAIR, "fit", TABLE_WORDS)
    for length in (0, 1, 3, 195, TABLE_WORDS - 1):
        c.ask_table(PAIR, "unfit", length)
    c.ask_table(edited(PAIR, (TABLE_WORDS, 1), (TABLE_ROOM - 1, 2**64 - 1)), "fit")
    # counts
    for edits in ([(0, 65)], [(0, 1)], [(0, 3)], [(0, 2**64 - 1)], [(1, 65)], [(1, 1)], [(1, 3)], [(1, 2**63)], [(2, 5)], [(2, 7)], [(2, 4097)], [(2, 2**64 - 1)]):
        c.ask_table(edited(PAIR, *edits), "unfit" if edits != [(0, 3)] else "fit")
    c.ask_table(edited(EMPTY, (0, 64)), "fit")
    c.ask_table(edited(EMPTY, (1, 64)), "fit")
    c.ask_table(edited(EMPTY, (2, 1)), "unfit")
    c.ask_table(edited(LONG, (2, 4097), (131, 4097)), "unfit")
    # yes-or-nos and wakings
    for place, value, expected in ((3, 1, "fit"), (4, 1, "fit"), (3, 2, "unfit"), (4, 2**63, "unfit"), (67, 2, "fit"), (68, 3, "fit"), (67, 4, "unfit"), (68, 2**64 - 1, "unfit")):
        c.ask_table(edited(PAIR, (place, value)), expected)
    c.ask_table(edited(EMPTY, (0, 1), (67, 1)), "unfit")
    # unused places
    for place in (5, 66, 69, 130, 133, 194, 201, 202, 4290, 4297, 4298, 8385, 8386):
        c.ask_table(edited(PAIR, (place, 1)), "unfit")
    # ends: gaps, overlaps, processes without instructions
    for a, b, expected in ((3, 5, "unfit"), (3, 7, "unfit"), (6, 3, "unfit"), (0, 6, "fit"), (6, 6, "fit"), (2, 6, "unfit"), (7, 6, "unfit")):
        c.ask_table(edited(PAIR, (131, a), (132, b)), expected)
    # kinds, signals, literals, what others are about, delays
    for operation, expected in (
        [(k, "fit" if k in (2,) else "unfit") for k in range(16)]
        + [(2 + 16, "unfit"), (1 + 16 * 2, "unfit"), (2**64 - 14, "unfit")]
    ):
        c.ask_table(edited(PAIR, (196, operation)), expected)
    for place, operation, expected in ((195, 16, "fit"), (195, 32, "unfit"), (195, 1, "fit"), (195, 17, "fit"), (195, 33, "unfit"), (197, 9 + 32, "unfit"), (200, 9, "unfit")):
        c.ask_table(edited(PAIR, (place, operation)), expected)
    for place, delay, expected in ((4293, LONGEST, "fit"), (4293, LONGEST + 1, "unfit"), (4293, 2**64 - 1, "unfit"), (4291, 1, "unfit"), (4292, 1, "unfit"), (4296, 1, "fit")):
        c.ask_table(edited(PAIR, (place, delay)), expected)
    # jumps: to the next, to the end, past the end, in place, back
    for target in range(0, 14):
        c.ask_table(edited(BRANCH, (196, TEST + 16 * target)), "fit" if target in (2, 4, 5, 7, 11) else "unfit")
        c.ask_table(edited(BRANCH, (199, SKIP + 16 * target)))
    c.ask_table(edited(BRANCH, (196, TEST + 16 * 4096)), "unfit")
    c.ask_table(edited(BRANCH, (196, TEST + 16 * 4097)), "unfit")
    c.ask_table(table(1, [[(SKIP, 1, 0)], [(SKIP, 2, 0)]]), "fit")
    c.ask_table(table(1, [[(SKIP, 2, 0)], [(SKIP, 2, 0)]]), "unfit")
    # numbers of operands: too few, left over, one way with more than another
    c.ask_table(table(1, [[post(0)]]), "unfit")
    c.ask_table(table(1, [[op(NOT)]]), "unfit")
    c.ask_table(table(1, [[name(0), op(AND), post(0)]]), "unfit")
    c.ask_table(table(1, [[name(0)]]), "unfit")
    c.ask_table(table(1, [[name(0), name(0), post(0)]]), "unfit")
    c.ask_table(table(1, [[name(0), (TEST, 4, 0), name(0), post(0)]]), "fit")
    c.ask_table(table(1, [[name(0), (TEST, 3, 0), name(0), name(0), post(0)]]), "unfit")
    c.ask_table(table(1, [[name(0), (TEST, 4, 0), YES, (SKIP, 5, 0), NO, post(0)]]), "fit")
    c.ask_table(table(1, [[name(0), name(0), (TEST, 4, 0), op(NOT), post(0)]]), "fit")
    # no way goes there: no number of operands is asked, and the rest is
    dead = [(SKIP, 3, 0), op(AND), post(0), name(1), post(1)]
    c.ask_table(table(2, [dead]), "fit")
    for i in ((12, 0, 0), (NAME, 2, 0), (ASSIGN, 1, LONGEST + 1), (TEST, 1, 0), (SKIP, 6, 0)):
        c.ask_table(table(2, [dead[:1] + [i] + dead[2:]]), "unfit")
    # drivers: twice in one process, in two, and where no way goes
    c.ask_table(table(1, [[YES, post(0), NO, post(0, 5)]]), "fit")
    c.ask_table(table(1, [[YES, post(0)], [NO, post(0)]]), "unfit")
    c.ask_table(table(1, [[YES, post(0)], [], [(SKIP, 5, 0), NO, post(0)]]), "unfit")
    c.ask_table(edited(FULL, (195 + 127, 9 + 16 * 0)), "unfit")
    c.ask_table(edited(FULL, (195 + 1, 9 + 16 * 63)), "unfit")
    c.ask_table(edited(FULL, (195 + 127, 9 + 16 * 64)), "unfit")


def change(time, value):
    return 2 * time + value


def session(words, time, pending):
    """A session for the table's words, from a list of changes of some signals."""
    s = [0] * SESSION_ROOM
    s[0], s[1] = words[0], time
    for k, changes in pending.items():
        s[66 + k] = len(changes)
        for j, (t, v) in enumerate(changes):
            s[130 + 16 * k + j] = change(t, v)
    return s


def sessions(c):
    start = edited(session(PAIR, 0, {0: [(3000000, 1)]}), (3, 1))
    c.ask_session(PAIR, start, "fit")
    c.ask_session(PAIR, start, "fit", SESSION_WORDS)
    for length in (0, 2, 130, SESSION_WORDS - 1):
        c.ask_session(PAIR, start, "unfit", length)
    c.ask_session(PAIR, edited(start, (SESSION_WORDS, 1), (SESSION_ROOM - 1, 2**64 - 1)), "fit")
    c.ask_session(edited(PAIR, (0, 1)), start, "no table")
    # the number of signals, the time, the values
    for place, value, expected in (
        (0, 1, "unfit"), (0, 3, "unfit"), (0, 0, "unfit"), (1, 2999999, "fit"), (1, 3000000, "unfit"), (1, 3000001, "unfit"),
        (2, 1, "fit"), (2, 2, "unfit"), (3, 2**64 - 1, "unfit"), (4, 1, "unfit"), (65, 1, "unfit"),
    ):
        c.ask_session(PAIR, edited(start, (place, value)), expected)
    for time, expected in ((LONGEST, "fit"), (LONGEST + 1, "unfit"), (2**64 - 1, "unfit")):
        c.ask_session(PAIR, session(PAIR, time, {}), expected)
    # pending times: later than the time, by at most 10^18
    for time in (0, 1, LONGEST):
        for late, expected in ((0, "unfit"), (1, "fit"), (LONGEST, "fit"), (LONGEST + 1, "unfit")):
            c.ask_session(PAIR, session(PAIR, time, {1: [(time + late, 1)]}), expected)
    c.ask_session(PAIR, edited(start, (130, 2**64 - 1)), "unfit")
    # rising, no two equal
    for changes, expected in (
        ([(5, 0), (6, 1)], "fit"), ([(5, 0), (5, 1)], "unfit"), ([(5, 0), (5, 0)], "unfit"), ([(6, 1), (5, 0)], "unfit"),
        ([(5, 0), (7, 0), (6, 0)], "unfit"), ([(5, 0), (6, 0), (LONGEST, 1)], "fit"), ([(LONGEST, 0), (LONGEST + 1, 1)], "unfit"),
    ):
        c.ask_session(PAIR, session(PAIR, 0, {1: changes}), expected)
    # at most 16, and zeros behind them
    many = [(10 * j + 1, j % 2) for j in range(17)]
    full = session(PAIR, 0, {0: many[:16], 1: many[1:17]})
    c.ask_session(PAIR, full, "fit")
    for place, value in ((66, 17), (67, 17), (66, 15), (67, 15), (66, 0), (67, 2**64 - 1), (146, 0), (161, 0)):
        c.ask_session(PAIR, edited(full, (place, value)), "unfit")
    c.ask_session(PAIR, edited(full, (66, 17), (67, 0), *[(146 + j, 0) for j in range(16)], (146, change(1000, 1))), "unfit")
    for place in (131, 145, 146, 162, 1152, 1153):
        c.ask_session(PAIR, edited(start, (place, change(9000000, 1))), "unfit")
    c.ask_session(PAIR, edited(start, (68, 1)), "unfit")
    c.ask_session(PAIR, edited(start, (68, 1), (162, change(9, 1))), "unfit")
    # a signal that no process posts has none
    one = table(2, [[name(1), post(0)]], wakes=[0, 1])
    c.ask_session(one, session(one, 0, {0: [(1, 1)]}), "fit")
    c.ask_session(one, session(one, 0, {1: [(1, 1)]}), "unfit")
    c.ask_session(EMPTY, session(EMPTY, 0, {}), "fit")
    c.ask_session(EMPTY, session(EMPTY, 7, {}), "fit")
    last = table(64, [[], [(SKIP, 3, 0), NO, post(63)]])
    c.ask_session(last, session(last, 0, {63: [(1, 1)]}), "fit")
    c.ask_session(last, session(last, 0, {62: [(1, 1)]}), "unfit")


def at_random(c):
    """Single words of fit tables and sessions, changed at random."""
    chance = random.Random(2001)
    for words in (PAIR, BRANCH, deep(34)):
        for _ in range(90):
            places = [0, 1, 2, 3, 4, 67, 68, 131, 132] + list(range(195, 195 + words[2] + 1)) + list(range(4291, 4292 + words[2]))
            place = chance.choice(places)
            value = chance.choice([0, 1, 2, 3, words[place] + 1, words[place] ^ 1, chance.randrange(12) + 16 * chance.randrange(14)])
            c.ask_table(edited(words, (place, value)))
    full = session(PAIR, 4, {0: [(5 + 3 * j, j % 2) for j in range(9)], 1: [(LONGEST - 20 + j, 1) for j in range(16)]})
    for _ in range(90):
        place = chance.choice([0, 1, 2, 3, 4, 66, 67, 68] + list(range(130, 163)))
        value = chance.choice([0, 1, 8, 9, 16, full[place] + 1, full[place] + 2, full[place] ^ 1, chance.randrange(70)])
        c.ask_session(PAIR, edited(full, (place, value)))


def main():
    c = Cases()
    tables(c)
    sessions(c)
    at_random(c)
    folder = pathlib.Path(__file__).resolve().parents[2] / "crates" / "fitness_cases"
    (folder / "stdin").write_text("".join(c.stdin))
    (folder / "stdout").write_text("".join(c.stdout))
    answers = {a: c.stdout.count(a) for a in sorted(set(c.stdout))}
    print(len(c.stdin), "lines", answers)


if __name__ == "__main__":
    main()
