# Compares two programs with the plain one on many made texts, and counts verdicts and refusals.
import argparse
import collections
import os
import random
import subprocess
import sys
import time

from sessions import CELLS, GATES, NUMBERS, SIGNALS, Docket, codes, instances, operand_count

SIGNS = {"&": 1, "|": 7, ">": 13, "<": 11, "=": 9, "^": 6}
MOST = 32768


# ---- plans ----


def random_gate(rng, kind, signals):
    code = rng.randrange(codes(kind))
    return code, [rng.randint(1, signals) for _ in range(operand_count(kind, code))]


def gate_line(code, operands):
    return f"g {code} " + " ".join(map(str, operands))


def formula(rng, switches, count, gates, depth=32):
    """A formula text with `count` gates, which are added to `gates`, and its signal."""
    if count == 0:
        signal = rng.randint(1, switches)
        return str(signal), signal
    if rng.random() < 0.25 and (count - 1) < 2 ** (depth - 2):
        text, signal = formula(rng, switches, count - 1, gates, depth - 1)
        gates.append((16, [signal]))
        return "-" + text, switches + len(gates)
    left = rng.randint(0, count - 1) if count < 12 else rng.randint(count // 3, 2 * count // 3)
    first, a = formula(rng, switches, left, gates, depth - 1)
    second, b = formula(rng, switches, count - 1 - left, gates, depth - 1)
    sign = rng.choice(list(SIGNS))
    gates.append((SIGNS[sign], [a, b]))
    return f"({first}{sign}{second})", switches + len(gates)


class Session:
    """Lines so far, and the docket once it is open."""

    def __init__(self, rng, kind=None, switches=None, gates=None, by_formula=None):
        self.rng = rng
        self.kind = kind or rng.choice("ttw")
        self.switches = switches or rng.choice([1, 2, 2, 3, 4, 6, 9, 17])
        count = rng.choice([0, 1, 2, 3, 4, 6, 10]) if gates is None else gates
        self.lines = [f"p {self.kind} {self.switches}"]
        self.gates = []
        self.docket = None
        if by_formula is None:
            by_formula = self.kind == "t" and rng.random() < 0.5
        if by_formula:
            text, self.root = formula(rng, self.switches, count, self.gates)
            self.last = "f " + text
        else:
            for _ in range(count):
                self.gate(*random_gate(rng, self.kind, self.signals()))
            self.root = rng.choice([self.signals(), rng.randint(1, self.signals())])
            self.last = f"r {self.root}"

    def signals(self):
        return self.switches + len(self.gates)

    def gate(self, code, operands):
        self.gates.append((code, operands))
        self.lines.append(gate_line(code, operands))

    def open(self):
        self.lines.append(self.last)
        self.docket = Docket(self.kind, self.switches, self.gates, self.root)
        return self

    def resolve(self, left, right):
        """Adds the line; answers whether it is granted."""
        self.lines.append(f"u {left} {right}")
        clause, refusal = self.docket.resolvent(left, right)
        if refusal is None:
            self.docket.write(clause)
        return refusal is None

    def define(self, code, operands):
        self.lines.append(f"d {self.docket.signals + 1} {code} " + " ".join(map(str, operands)))
        self.docket.define(code, operands)

    def strike(self, number):
        self.lines.append(f"x {number}")
        self.docket.strike(number)

    def good_steps(self, count):
        rng, docket = self.rng, self.docket
        for _ in range(count):
            if not docket.fits or not docket.clauses:
                return self
            chance = rng.random()
            if chance < 0.15:
                self.strike(rng.choice(list(docket.clauses)))
            elif chance < 0.35:
                code, operands = random_gate(rng, self.kind, docket.signals)
                if docket.can_define(code):
                    self.define(code, operands)
            else:
                left = rng.choice(list(docket.clauses))
                right = docket.partner(rng, left)
                if right is not None and docket.resolvent(left, right)[1] is None:
                    self.resolve(left, right)
        return self

    def setting(self, tries=20):
        """A setting that makes the plan true, or None."""
        for _ in range(tries):
            setting = [self.rng.random() < 0.5 for _ in range(self.switches)]
            if self.docket.holds(setting):
                return setting
        return None

    def refute(self):
        """Adds resolves up to the empty clause; answers its number, or None if none is found soon."""
        docket, made = self.docket, {}
        known = {clause: number for number, clause in docket.clauses.items()}
        proof = {}
        queue = sorted(known, key=len)
        done = []
        while queue and len(proof) < 400:
            queue.sort(key=len)
            given = queue.pop(0)
            for other in done:
                clash = [a for a in given if -a in other]
                if len(clash) != 1:
                    continue
                clause = (given | other) - {clash[0], -clash[0]}
                if clause in known or clause in proof or len(clause) > 4:
                    continue
                proof[clause] = (given, other)
                if not clause:
                    return self.replay(clause, proof, known)
                queue.append(clause)
            done.append(given)
        return None

    def replay(self, clause, proof, known):
        if clause not in known:
            left, right = (self.replay(c, proof, known) for c in proof[clause])
            if left is None or right is None or not self.resolve(left, right):
                return None
            known[clause] = self.docket.given
        return known[clause]

    def text(self):
        return "".join(line + "\n" for line in self.lines).encode()


def digits(setting):
    return "v " + "".join("1" if on else "0" for on in setting)


def any_session(rng, steps=12):
    return Session(rng).open().good_steps(rng.randint(0, steps))


# ---- a maker of texts for each verdict and refusal ----


def opened(rng):
    return any_session(rng, 40)


def runs(rng):
    session = any_session(rng)
    setting = session.setting()
    if setting is not None:
        session.lines.append(digits(setting))
    return session


def cannot_run(rng):
    for _ in range(30):
        session = Session(rng, switches=rng.randint(1, 3), gates=rng.randint(1, 7)).open()
        if rng.random() < 0.3:
            session.good_steps(3)
        if any(session.docket.holds([bool(i >> s & 1) for s in range(session.switches)]) for i in range(8)):
            continue
        number = session.refute()
        if number is not None:
            if rng.random() < 0.1:
                session.lines.append(f"x {number}")
            session.lines.append(f"e {number}")
            return session
    return session


def long_text(rng):
    session = any_session(rng)
    size = rng.choice([MOST - 1, MOST, MOST, MOST + 1, MOST + 1, rng.randint(MOST, 40000)])
    setting = session.setting()
    last = digits(setting) if setting is not None and rng.random() < 0.7 else "x 1"
    room = size - len(session.text()) - len(last) - 1
    if rng.random() < 0.4:
        # a filler that is refused early
        while room > 0:
            line = rng.choice(["u 1 1", "x 65535", "r 1", "v 0"])
            if len(line) + 1 > room:
                line = "x" * (room - 1)
            session.lines.append(line)
            room -= len(line) + 1
    else:
        # definitions of code 0 that are struck again, then a line of the size that is left
        docket = session.docket
        while room > 60 and docket.signals < SIGNALS and docket.can_define(0):
            before = docket.given
            size_before = len(session.lines)
            session.define(0, [docket.signals] * operand_count(session.kind, 0))
            for number in range(before + 1, docket.given + 1):
                session.strike(number)
            room -= sum(len(line) + 1 for line in session.lines[size_before:])
        if room > 0:
            session.lines.append("v " + "0" * (room - 3) if room > 3 else "\n" * (room - 1))
    session.lines.append(last)
    return session


def exact_text(rng):
    """A text of about the most bytes that is granted to its end."""
    session = Session(rng, kind="t", switches=4, gates=10).open()
    docket = session.docket
    setting = session.setting()
    last = digits(setting) if setting is not None else "x 9"
    pairs = [(a, b) for a in docket.clauses for b in docket.clauses if a > 9 and docket.resolvent(a, b)[1] is None]
    room = MOST + rng.choice([-1, 0, 0, 0, 1, 1]) - len(session.text()) - len(last) - 1
    while room > 60:
        before = len(session.lines)
        if docket.signals < SIGNALS:
            session.define(0, [docket.signals] * 2)
        elif pairs and docket.given < NUMBERS:
            session.resolve(*pairs[0])
        else:
            break
        session.strike(docket.given)
        room -= sum(len(line) + 1 for line in session.lines[before:])
    # strikes of four and five bytes fill the rest
    while room >= 4:
        width = 2 if room >= 36 or room % 4 else 1
        found = [n for n in docket.clauses if len(str(n)) == width and n != 9]
        if not found:
            break
        session.strike(found[-1])
        room -= width + 3
    session.lines.append(last)
    return session


BAD_LINES = [
    "", " ", "p", "p ", "p t", "p t ", "p  t 3", "p t  3", "p t 3 ", "p t 03", "p t 65536", "p x 3", "p tt 3", "p t 3 3", "pt 3", "P t 3",
    "g", "g 1", "g 1 ", "g 1 1 1 ", "g 01 1 1", "g 1 1  1", "g 1 1 1 1 1 1 1 1 1 1", "g 7 1 1 1 1 1 1 1 1 1", "g 1,1 1", "g -1 1 1", "g +1 1 1", "g 1\t1 1", "g 1 1 a",
    "r", "r ", "r 1 1", "r 1 ", " r 1", "r  1", "r 01", "r 00", "r 99999", "r 65536", "r 100000", "r 1\r", "r x",
    "f", "f ", "f 1 1", "f (1 & 1)", "f  1", "f 1 ",
    "d", "d 3", "d 3 1", "d 3 1 ", "d 03 1 1 1", "d 3 1 1 1 1 1 1 1 1 1 1", "d 3 1 1 1 1 1 1 1 1 1", "d 3 1 1 1\x00", "d a 1 1 1",
    "u", "u 1", "u 1 ", "u 1 2 ", "u 1 2 3", "u 01 2", "u 1 65536", "u 1  2", "u1 2", "U 1 2", "u 1 2\r", "u 99999999999999999999 1", "u 1 4294967297",
    "x", "x ", "x 1 2", "x -1", "x 1 ", "x 065", "x 1.0", "x 1x", "x 70000", "xx 1",
    "e", "e ", "e 1 2", "e 1 ", "e 1e", "e 0x1",
    "v", "v ", "v  0", "v 2", "v 02", "v 0 1", "v 01 ", "v 0a", "v0", "v -",
    "a", "q 1", "# 1", "\x00", "\u00e9 1", "c text", "1", "0 0", "z 1",
]
BAD_FORMULAS = [
    ")", "()", "(1)", "(1&)", "(&1)", "(1&1", "(1&1))", "(1&1)1", "1)", "1-", "-", "--", "(1+1)", "(1&&1)", "1&1", "(1-1)", "01", "(01&1)", "(1&00)", "-01", "65536", "(65536&1)",
    "99999999999999999999", "x", "(1&1)x", "-(1&1", "((1&1)|1", "(1|(1&1)", "(1=1=1)", "1(", "(-&1)", "\x00", "1\t", "(1~1)", "[1&1]", "(1&1\x00)", "--1x", "(-1>-1)>", "(0", "(0&", "0x", "00", "000000", "0-", "65535", "65536x", "-65535",
]


def bad_line(rng):
    stage = rng.randrange(4)
    if stage == 0:
        session = Session(rng)
        session.lines = []
    elif stage == 1:
        session = Session(rng)
        del session.lines[rng.randint(1, len(session.lines)):]
    elif stage == 2:
        session = any_session(rng)
    else:
        session = runs(rng)
    session.lines.append(rng.choice(BAD_LINES))
    if rng.random() < 0.3:
        session.lines.append("x 1")
    return session


def bad_formula(rng):
    session = Session(rng, kind="t", gates=rng.choice([0, 0, 0, 1]))
    text = rng.choice(BAD_FORMULAS)
    if rng.random() < 0.4:
        good, _ = formula(rng, session.switches, rng.randint(0, 5), [])
        cut = rng.randint(0, len(good))
        text = rng.choice([good + text, text + good, good[:cut] + text + good[cut:], good[:cut], good[cut:]])
    session.lines.append("f " + text)
    return session


def no_last_byte(rng):
    text = rng.choice([runs, opened, bad_formula, cannot_run])(rng).text()
    return text[: -rng.choice([1, 1, 2, 3])] if len(text) > 4 else text


def out_of_place(rng):
    stage = rng.randrange(5)
    session = Session(rng)
    if stage == 0:
        session.lines = []
        session.lines += rng.choice([[], ["g 1 1 1"], ["r 1"], ["f 1"], ["u 1 1"], ["x 1"], ["e 1"], ["v 0"], ["d 3 1 1 1"], ["f )"], ["g 99 0"]])
    elif stage == 1:
        session.lines += rng.choice([[], ["p t 2"], ["p w 0"], ["u 1 1"], ["x 1"], ["e 1"], ["v 0"], ["d 3 1 1 1"]])
    elif stage == 2:
        session.open().good_steps(3)
        session.lines.append(rng.choice(["p t 2", "p w 999", "g 1 1 1", "g 99 0", "r 1", "r 0", "f 1", "f )", "f 0"]))
    elif stage == 3:
        session = runs(rng)
        session.lines.append(rng.choice(["p t 2", "p w 999", "g 1 1 1", "g 99 0", "r 1", "r 0", "f 1", "f )", "f 0"]))
    else:
        session = Session(rng, gates=rng.randint(0, 2), by_formula=False)
        session.lines.append("f " + rng.choice(["1", "(1&1)", ")", "0", "-" * 40 + "1", "1 1"]))
        session.lines.append("u 1 1")
    return session


def too_deep(rng):
    session = Session(rng, kind="t", gates=0, by_formula=True)
    depth = rng.choice([30, 31, 32, 32, 33, 33, 33, 34, 40, 300])
    opening, closing = "", ""
    for _ in range(depth):
        if rng.random() < 0.5:
            opening += "-"
        elif rng.random() < 0.5:
            opening += "("
            closing = f"{rng.choice('&|><=^')}{rng.randint(1, session.switches)})" + closing
        else:
            opening += f"({rng.randint(1, session.switches)}{rng.choice('&|><=^')}"
            closing = ")" + closing
    core = rng.choice(["1", "1", "1", "0", "01", "x", "(", "-", ")", ""])
    text = opening + core + closing
    if rng.random() < 0.2:
        other, _ = formula(rng, session.switches, 3, [])
        text = f"({other}&{text})"
    if rng.random() < 0.15:
        place = rng.randint(0, len(text))
        text = text[:place] + rng.choice(["x", "0", ")", "(", "-", "99999"]) + text[place:]
    session.last = "f " + text
    session.lines += [session.last, "x 1"]
    return session


def size(rng):
    session = Session(rng)
    kind = rng.choice("tw")
    if rng.random() < 0.3:
        session.lines = [f"p {kind} {rng.choice([0, 257, 258, 1000, 65535, 256])}", "r 256"]
        return session
    count = rng.choice([255, 256, 256, 257, 257, 258, 270])
    switches = rng.choice([1, 2, 5, 256])
    if rng.random() < 0.5:
        session = Session(rng, kind="t", switches=switches, gates=0, by_formula=True)
        text, _ = formula(rng, switches, count, session.gates)
        if rng.random() < 0.3:
            # the last gate is made at the last byte, which is missing or wrong
            text = text[:-1] + rng.choice(["", "x", "(", "0", "))", ")x"])
        elif rng.random() < 0.3:
            place = rng.randint(max(0, len(text) - 40), len(text))
            text = text[:place] + rng.choice(["x", "0", ")", "(", "-", "99999"]) + text[place:]
        session.lines += ["f " + text, "x 1", "x 1"]
        return session
    session = Session(rng, kind=kind, switches=switches, gates=0, by_formula=False)
    for _ in range(count):
        if rng.random() < 0.7:
            session.gate(0, [rng.randint(1, session.signals()) for _ in range(operand_count(kind, 0))])
        else:
            code = rng.choice([0, 1, 8, 9, 10]) if kind == "w" else rng.randrange(17)
            session.gate(code, [rng.randint(1, session.signals()) for _ in range(operand_count(kind, code))])
    if rng.random() < 0.5:
        session.lines.append(rng.choice(["g 99 0", "g 1 0", "g 0 0 0", "g 0 1 1 1", "g 1 1 1"]))
    session.lines += [f"r {session.signals()}", "x 1", "x 1"]
    return session


def node(rng, fault):
    """A gate or a definition with a fault: 6, 7, 8, 9 or none, sometimes a second one."""
    session = Session(rng, by_formula=None)
    defines = rng.random() < 0.5
    if defines:
        session.open().good_steps(rng.randint(0, 6))
        signals = session.docket.signals
    elif session.last.startswith("f"):
        session = Session(rng, by_formula=False)
        signals = session.signals()
    else:
        signals = session.signals()
    code, operands = random_gate(rng, session.kind, signals)
    z = signals + 1
    faults = [fault] + ([rng.choice([6, 7, 8, 9])] if rng.random() < 0.3 else [])
    if 7 in faults:
        operands = [rng.randint(1, signals) for _ in range(rng.randint(1, 8))]
    if 8 in faults:
        operands[rng.randrange(len(operands))] = rng.choice([0, signals + 1, signals + 2, 65535])
    if 6 in faults:
        code = rng.choice([codes(session.kind), codes(session.kind) + 1, 64, 255, 256, 272, 65535])
    if 9 in faults:
        z = rng.choice([0, 1, signals, signals + 2, 1025, 65535])
    words = " ".join(map(str, [code] + operands))
    session.lines.append(f"d {z} {words}" if defines else f"g {words}")
    session.lines.append("x 1" if defines else f"r {session.signals() + 1}")
    return session


def no_signal(rng):
    if rng.random() < 0.5:
        return node(rng, 8)
    session = Session(rng, by_formula=rng.random() < 0.5 or None)
    if session.last.startswith("r"):
        session.last = f"r {rng.choice([0, session.signals() + 1, session.signals() + 2, 65535])}"
    elif session.kind == "t":
        text = session.last[2:]
        places = [i for i, c in enumerate(text) if c.isdigit() and (i == 0 or not text[i - 1].isdigit())]
        place = rng.choice(places)
        end = place
        while end < len(text) and text[end].isdigit():
            end += 1
        bad = rng.choice([0, session.switches + 1, session.switches + 2, 257, 65535, 65536, 10 * session.switches])
        session.last = "f " + text[:place] + str(bad) + text[end:]
    session.lines.append(session.last)
    session.lines.append("x 1")
    return session


def spent(rng):
    """Signals up to 1,024, and a few more."""
    kind = rng.choice("tttw")
    switches = rng.choice([1, 100, 255, 256]) if kind == "t" else 256
    session = Session(rng, kind=kind, switches=switches, gates=rng.choice([0, 3, 200]) if kind == "t" else 3, by_formula=False).open()
    docket = session.docket
    stop = SIGNALS - rng.choice([0, 0, 0, 0, 1, 2])
    while docket.signals < stop:
        code = rng.choice([0, 0, 0, 15, 3, 12]) if kind == "t" else rng.choice([0, 8, 16, 24])
        if kind == "t" and len(session.text()) > 29000:
            break
        if not docket.can_define(code):
            code = 0
            if not docket.can_define(code):
                break
        session.define(code, [rng.randint(1, min(9, docket.signals)) for _ in range(operand_count(kind, code))])
    signals = docket.signals
    code, operands = random_gate(rng, kind, signals)
    z = rng.choice([signals + 1, signals + 1, signals + 1, signals + 1, signals, signals + 2, 1025, 1024])
    if rng.random() < 0.15:
        operands[0] = rng.choice([0, 1024, 1025])
    session.lines.append(f"d {z} {code} " + " ".join(map(str, operands)))
    if rng.random() < 0.5:
        session.lines.append(f"u {docket.given} {docket.given}")
    return session


def no_clause(rng):
    session = any_session(rng)
    docket = session.docket
    bad = [0, docket.given + 1, docket.given + 2, 2048, 2049, 65535]
    if docket.clauses:
        struck = rng.choice(list(docket.clauses))
        if rng.random() < 0.7:
            session.strike(struck)
            bad += [struck] * 4
    number = rng.choice(bad)
    there = rng.choice(list(docket.clauses)) if docket.clauses else 1
    session.lines.append(rng.choice([f"u {number} {there}", f"u {there} {number}", f"u {number} {number}", f"x {number}", f"e {number}"]))
    return session


def clash(rng, wanted):
    session = any_session(rng)
    docket = session.docket
    numbers = list(docket.clauses)
    for _ in range(60):
        if not numbers:
            break
        left, right = rng.choice(numbers), rng.choice(numbers)
        if docket.resolvent(left, right)[1] == wanted:
            session.lines += [f"u {left} {right}", "x 1"]
            break
    return session


def grown(rng, size):
    """A session with a clause of about `size` literals, whose number it answers, and one to resolve with."""
    kind = rng.choice("wwt")
    switches = rng.choice([80, 120, 256])
    session = Session(rng, kind=kind, switches=switches, gates=0, by_formula=False)
    spare = list(range(1, switches + 1))
    rng.shuffle(spare)
    previous = spare.pop()
    last = []
    total = 1
    while total < size + 6 and len(spare) > 8:
        k = rng.randint(2, 8) if kind == "w" else 2
        operands = [previous] + [spare.pop() for _ in range(k - 1)]
        code = (8 + k - 1) if kind == "w" else 7
        session.gate(code, operands)
        previous = session.signals()
        last.append(k + 1 if kind == "w" else 3)
        total += k - 1
    session.root = previous
    session.last = f"r {previous}"
    session.open()
    number = 0
    wide = []
    for length in last:
        number += length
        wide.append(number)
    current = wide[-1]
    for below in reversed(wide[:-1]):
        clause, refusal = session.docket.resolvent(current, below)
        if refusal is not None:
            return session, current, below
        if len(clause) >= size:
            return session, current, below
        session.resolve(current, below)
        current = session.docket.given
    return session, current, wide[0]


def long_clause(rng):
    session, left, right = grown(rng, rng.choice([64, 64, 65, 65, 66, 80]))
    docket = session.docket
    there = [a for a in sorted(docket.clauses[left]) if 0 < a <= session.switches]
    spare = [a for a in range(1, session.switches + 1) if a not in docket.clauses[left]]
    if session.kind == "w" and rng.random() < 0.4 and len(there) > 8 and len(spare) > 8:
        # a clause that clashes on none, one or more signals of the long one
        clashes = rng.choice([0, 1, 2, 2, 3])
        session.define(7, rng.sample(there, clashes) + rng.sample(spare, 8 - clashes))
        right = docket.given
    if rng.random() < 0.5:
        left, right = right, left
    session.lines += [f"u {left} {right}", "x 1"]
    return session


def full(rng):
    way = rng.randrange(5)
    if way == 0:
        # opening: wide gates with many clauses
        kind, switches = "w", rng.choice([8, 40, 256])
        session = Session(rng, kind=kind, switches=switches, gates=0, by_formula=False)
        aim = rng.choice([NUMBERS, NUMBERS, CELLS])
        many = rng.choice([7, 15, 23, 31])
        small = [0, 8, 16, 24]
        numbers, cells = 1, 1
        jitter = rng.randint(-2, 3)
        while len(session.gates) < GATES:
            left = aim + jitter - (numbers if aim == NUMBERS else cells)
            per = (9, 25) if left > 30 else (2, 4)
            code = many if left > 30 else rng.choice(small)
            if left <= 0:
                break
            k = operand_count(kind, code)
            operands = rng.sample(range(1, min(session.signals(), 99) + 1), k)
            session.gate(code, operands)
            numbers, cells = numbers + per[0], cells + per[1]
        session.root = session.signals()
        session.last = f"r {session.root}"
        session.open()
        session.lines += ["u 1 1"] if rng.random() < 0.5 else []
        return session
    if way in (1, 2):
        # cells: a long clause again and again, then a resolve or a definition
        session, left, right = grown(rng, rng.choice([40, 60, 62, 64]))
        docket = session.docket
        while docket.resolvent(left, right)[1] is None:
            session.resolve(left, right)
        if way == 2 and docket.resolvent(left, right)[1] == 15:
            # fill up with short clauses
            numbers = list(docket.clauses)
            for _ in range(200):
                a = rng.choice(numbers)
                b = docket.partner(rng, a)
                if b is None:
                    continue
                clause, refusal = docket.resolvent(a, b)
                if refusal is None and len(clause) < 12:
                    session.resolve(a, b)
        if rng.random() < 0.2:
            session.strike(docket.given)
    else:
        # numbers: short clauses again and again
        session = Session(rng, kind=rng.choice("tw"), switches=rng.randint(2, 5), gates=rng.randint(1, 5)).open()
        docket = session.docket
        pairs = []
        for a in docket.clauses:
            for b in docket.clauses:
                if docket.resolvent(a, b)[1] is None and len(docket.resolvent(a, b)[0]) < 3:
                    pairs.append((a, b))
        if not pairs:
            return session
        stop = NUMBERS - rng.choice([0, 0, 0, 0, 1, 2, 3, 4, 5, 9])
        while docket.given < stop and docket.resolvent(*(pair := rng.choice(pairs)))[1] is None:
            session.resolve(*pair)
            if rng.random() < 0.2 and docket.given > 100:
                session.strike(docket.given)
        left, right = rng.choice(pairs)
    code, operands = random_gate(rng, session.kind, docket.signals)
    define = f"d {docket.signals + 1} {code} " + " ".join(map(str, operands))
    if rng.random() < 0.3:
        # an operand twice: patterns are left out, but counted
        define = f"d {docket.signals + 1} {code} " + " ".join(["1"] * len(operands))
    session.lines += rng.choice([[define], [f"u {left} {right}", define], [f"u {left} {right}"]])
    return session


def full_exactly(rng):
    """Numbers or cells up to about what a definition needs, then the definition."""
    kind = rng.choice("tw")
    switches = rng.choice([8, 12])
    session = Session(rng, kind=kind, switches=switches, gates=0, by_formula=False)
    session.gate(7 if kind == "t" else 15, [1, 2] if kind == "t" else list(range(1, 9)))
    session.gate(1 if kind == "t" else 0, [session.signals()] * (2 if kind == "t" else 1))
    session.root = session.signals()
    session.last = f"r {session.root}"
    session.open()
    docket = session.docket
    code, operands = random_gate(rng, kind, docket.signals)
    if rng.random() < 0.4:
        operands = [operands[0]] * len(operands)
    need = instances(kind, code, list(range(1, len(operands) + 1)), 99)
    numbers, cells = len(need), sum(map(len, need))
    pairs = [(a, b) for a in docket.clauses for b in docket.clauses if docket.resolvent(a, b)[1] is None]
    lengths = {pair: len(docket.resolvent(*pair)[0]) for pair in pairs}
    off = rng.choice([-1, 0, 0, 1, 1, 2])
    if rng.random() < 0.5 and kind == "w":
        goal = CELLS - cells + off
        while pairs and docket.given < NUMBERS - 30:
            fitting = [pair for pair in pairs if docket.cells + lengths[pair] <= goal]
            if not fitting:
                break
            session.resolve(*max(fitting, key=lambda pair: (lengths[pair], pair)))
    elif pairs:
        short = min(pairs, key=lambda pair: (lengths[pair], pair))
        while docket.given < NUMBERS - numbers + off and docket.resolvent(*short)[1] is None:
            session.resolve(*short)
    session.lines.append(f"d {docket.signals + 1} {code} " + " ".join(map(str, operands)))
    session.lines.append("x 1")
    return session


def not_empty(rng):
    session = any_session(rng)
    if session.docket.clauses:
        session.lines.append(f"e {rng.choice(list(session.docket.clauses))}")
    return session


def wrong_setting(rng):
    session = Session(rng, switches=rng.choice([1, 2, 7, 8, 9, 15, 16, 17, 255, 256])).open().good_steps(2)
    count = session.switches + rng.choice([-1, 1, 2, -2, 7, 8, 256, -session.switches + 1])
    session.lines.append("v " + "".join(rng.choice("01") for _ in range(max(1, count))))
    return session


def plan_false(rng):
    switches = rng.choice([1, 2, 3, 7, 8, 9, 16, 17, 64, 255, 256])
    session = Session(rng, switches=switches).open().good_steps(2)
    session.lines.append(digits([rng.random() < 0.5 for _ in range(switches)]))
    return session


def closed(rng):
    session = rng.choice([runs, cannot_run])(rng)
    number = rng.randint(0, session.docket.given + 1)
    session.lines.append(rng.choice([f"u {number} 1", f"x {number}", f"e {number}", "d 0 99 0", f"d {session.docket.signals + 1} 0 1 1", "v 0", "v " + "1" * session.switches]))
    return session


def damaged(rng):
    """A good text with a few bytes or lines changed."""
    text = bytearray(rng.choice([opened, runs, cannot_run, plan_false, too_deep, bad_formula])(rng).text())
    for _ in range(rng.choice([1, 1, 1, 2, 3])):
        place = rng.randint(0, len(text))
        way = rng.randrange(6)
        byte = rng.choice(b"0123456789 \n\n pgrfduxevtw()-&|><=^\r\t\x00\xff") if rng.random() < 0.9 else rng.randrange(256)
        if way == 0:
            text[place:place] = bytes([byte])
        elif way == 1:
            text[place : place + 1] = b""
        elif way == 2:
            text[place : place + 1] = bytes([byte])
        elif way == 3:
            lines = bytes(text).split(b"\n")
            i, j = rng.randrange(len(lines)), rng.randrange(len(lines))
            lines[i], lines[j] = lines[j], lines[i]
            text = bytearray(b"\n".join(lines))
        elif way == 4:
            lines = bytes(text).split(b"\n")
            i = rng.randrange(len(lines))
            lines[i:i] = [rng.choice(lines)]
            text = bytearray(b"\n".join(lines))
        else:
            end = place + rng.randint(1, 9)
            text[place:end] = b""
    return bytes(text)


def noise(rng):
    alphabet = b"0123456789 \n pgrfduxevtw()-&|" if rng.random() < 0.8 else bytes(range(256))
    return bytes(rng.choice(alphabet) for _ in range(rng.randint(0, 40)))


MAKERS = [
    (60, opened), (60, runs), (60, cannot_run), (10, long_text), (6, exact_text), (60, bad_line), (60, bad_formula), (30, no_last_byte), (60, out_of_place), (40, too_deep), (16, size),
    (40, lambda rng: node(rng, 6)), (40, lambda rng: node(rng, 7)), (60, no_signal), (40, lambda rng: node(rng, 9)), (20, spent), (50, no_clause), (40, lambda rng: clash(rng, 12)), (40, lambda rng: clash(rng, 13)),
    (16, long_clause), (20, full), (12, full_exactly), (40, not_empty), (40, wrong_setting), (50, plan_false), (50, closed), (120, damaged), (10, noise),
]


def make(seed, index):
    rng = random.Random(f"{seed} {index}")
    maker = rng.choices([m for _, m in MAKERS], [w for w, _ in MAKERS])[0]
    made = maker(rng)
    return made if isinstance(made, bytes) else made.text()


def answer(program, text):
    done = subprocess.run([program], input=text, stdout=subprocess.PIPE, stderr=subprocess.DEVNULL)
    out = done.stdout.decode("latin-1")
    return out if done.returncode == 0 else f"{out} [exit {done.returncode}]"


def main():
    parser = argparse.ArgumentParser()
    parser.add_argument("programs", nargs="*", default=["crates/judge_packed/out/judge_packed", "crates/judge_chained/out/judge_chained"])
    parser.add_argument("--plain", help="the plain program; without it, it is built")
    parser.add_argument("--count", type=int, default=20000)
    parser.add_argument("--seed", type=int, default=1)
    parser.add_argument("--kept", default="target/bench/differences", help="where texts with a difference go")
    parser.add_argument("--least", type=int, default=20, help="each verdict and refusal is met so often")
    options = parser.parse_args()
    if options.plain is None:
        options.plain = "target/bench/plain_compared"
        os.makedirs("target/bench", exist_ok=True)
        subprocess.run(["rustc", "-O", "--edition", "2021", "-o", options.plain, "bench/plain.rs"], check=True)
    print(f"seed {options.seed}, {options.count} texts, {options.plain} against {' '.join(options.programs)}")
    met = collections.Counter()
    differences = 0
    start = time.time()
    for index in range(options.count):
        text = make(options.seed, index)
        plain = answer(options.plain, text)
        words = plain.split()
        met["refused " + words[2] if words and words[0] == "refused" else words[0] if words else "nothing"] += 1
        for program in options.programs:
            other = answer(program, text)
            if other != plain:
                differences += 1
                os.makedirs(options.kept, exist_ok=True)
                path = os.path.join(options.kept, f"{options.seed}_{index}.txt")
                with open(path, "wb") as file:
                    file.write(text)
                print(f"difference at text {index}: plain {plain!r}, {program} {other!r}, text in {path}")
    wanted = ["cannot", "runs", "open"] + [f"refused {n}" for n in range(1, 20)]
    for name in wanted + sorted(set(met) - set(wanted)):
        print(f"{'cannot run' if name == 'cannot' else name:12} {met[name]:6}" + ("" if met[name] >= options.least else "   too few"))
    print(f"{differences} differences in {options.count} texts, {time.time() - start:.0f} s")
    sys.exit(1 if differences or any(met[name] < options.least for name in wanted) else 0)


if __name__ == "__main__":
    main()
