# Plans and dockets as sets of literals, for the scripts that make texts.
NUMBERS = 2048
CELLS = 6144
SIGNALS = 1024
GATES = 256
LONGEST = 64

# Two-input patterns of the codes 0 to 7: 1 is l, 2 is r, 3 is the output.
PATTERNS = [
    [[-3]],
    [[1, -3], [2, -3], [-1, -2, 3]],
    [[1, -3], [-2, -3], [-1, 2, 3]],
    [[1, -3], [-1, 3]],
    [[-1, -3], [2, -3], [1, -2, 3]],
    [[2, -3], [-2, 3]],
    [[-1, 2, 3], [1, -2, 3], [1, 2, -3], [-1, -2, -3]],
    [[-1, 3], [-2, 3], [1, 2, -3]],
]


def operand_count(kind, code):
    if kind == "w":
        return code % 8 + 1
    return 1 if code == 16 else 2


def codes(kind):
    return 32 if kind == "w" else 17


def truth(kind, code, row):
    """The value of an operator on a list of operand values."""
    if kind == "w":
        family = code // 8
        value = any(row) if family % 2 else all(row)
        return value != (family > 1)
    if code == 16:
        return not row[0]
    return bool(code >> (3 - 2 * row[0] - row[1]) & 1)


def instances(kind, code, operands, output):
    """The patterns of an operator with signals put in, none left out."""
    if kind == "w":
        family = code // 8
        sign = -1 if family % 2 else 1
        x = output if (family > 1) == (family % 2 == 1) else -output
        return [[sign * a, -x] for a in operands] + [[-sign * a for a in operands] + [x]]
    code = 12 if code == 16 else code
    flip = -1 if code > 7 else 1
    signals = [0] + list(operands)
    out = []
    for pattern in PATTERNS[min(code, 15 - code)]:
        slots = []
        for slot in pattern:
            sign = 1 if slot > 0 else -1
            slots.append(sign * flip * output if abs(slot) == 3 else sign * signals[abs(slot)])
        out.append(slots)
    return out


def kept(literals):
    """The clause of an instance, or None if a signal stands both ways."""
    clause = frozenset(literals)
    return None if any(-a in clause for a in clause) else clause


class Docket:
    """An open docket; `clauses` has what stands."""

    def __init__(self, kind, switches, gates, root):
        self.kind, self.switches, self.gates, self.root = kind, switches, gates, root
        self.clauses, self.given, self.cells = {}, 0, 0
        self.holders = {}
        self.signals = switches
        for code, operands in gates:
            self.signals += 1
            self._write_gate(code, operands)
        self.write(frozenset([root]))
        self.fits = self.given <= NUMBERS and self.cells <= CELLS

    def _write_gate(self, code, operands):
        for instance in instances(self.kind, code, operands, self.signals):
            clause = kept(instance)
            if clause is not None:
                self.write(clause)

    def write(self, clause):
        self.given += 1
        self.cells += len(clause)
        self.clauses[self.given] = clause
        for a in clause:
            self.holders.setdefault(a, {})[self.given] = None
        return self.given

    def strike(self, number):
        clause = self.clauses.pop(number)
        self.cells -= len(clause)
        for a in clause:
            del self.holders[a][number]

    def resolvent(self, left, right):
        """The resolvent and its refusal, of which one is None."""
        a, b = self.clauses.get(left), self.clauses.get(right)
        if a is None or b is None:
            return None, 11
        clash = [x for x in a if -x in b]
        if len(clash) != 1:
            return None, 13 if clash else 12
        merged = (a | b) - {clash[0], -clash[0]}
        if len(merged) > LONGEST:
            return None, 14
        if self.given >= NUMBERS or self.cells + len(merged) > CELLS:
            return None, 15
        return merged, None

    def can_define(self, code):
        row = instances(self.kind, code, range(1, operand_count(self.kind, code) + 1), 9)
        need = sum(map(len, row))
        return self.signals < SIGNALS and self.given + len(row) <= NUMBERS and self.cells + need <= CELLS

    def define(self, code, operands):
        self.signals += 1
        self._write_gate(code, operands)

    def holds(self, setting):
        values = [None] + list(setting)
        for code, operands in self.gates:
            values.append(truth(self.kind, code, [values[s] for s in operands]))
        return values[self.root]

    def partner(self, rng, left):
        """A number whose clause clashes with that of `left`, or None."""
        clause = self.clauses[left]
        if not clause:
            return None
        holders = self.holders.get(-rng.choice(sorted(clause)))
        return rng.choice(list(holders)) if holders else None
