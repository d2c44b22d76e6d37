# Makes a long text whose steps are all granted: a two-input plan, then resolves, strikes and defines, last a setting.
import argparse
import random
import sys

from sessions import CELLS, NUMBERS, Docket

parser = argparse.ArgumentParser()
parser.add_argument("--seed", type=int, default=1)
parser.add_argument("--switches", type=int, default=24)
parser.add_argument("--gates", type=int, default=60)
parser.add_argument("--steps", type=int, default=100000, help="at most so many")
parser.add_argument("--bytes", type=int, default=32768, help="at most so many")
parser.add_argument("--longest", type=int, default=8, help="resolvents of at most so many literals")
parser.add_argument("--strikes", type=float, default=0.45, help="share of strikes among the steps, more if cells run out")
options = parser.parse_args()
rng = random.Random(options.seed)

# A plan whose last gate is true at some setting.
while True:
    gates = []
    for i in range(options.gates):
        code = rng.choice([1, 7, 13, 11, 9, 6, 2, 4, 8, 14, 16])
        there = options.switches + i
        near = lambda: rng.randint(max(1, there - 20), there)
        gates.append((code, [near()] if code == 16 else [near(), near()]))
    docket = Docket("t", options.switches, gates, options.switches + options.gates)
    settings = ([rng.random() < 0.5 for _ in range(options.switches)] for _ in range(100))
    setting = next((s for s in settings if docket.holds(s)), None)
    if setting is not None:
        break

lines = [f"p t {options.switches}"]
lines += [f"g {code} " + " ".join(map(str, operands)) for code, operands in gates]
lines.append(f"r {docket.root}")
last = "v " + "".join("1" if on else "0" for on in setting)
room = options.bytes - sum(len(line) + 1 for line in lines) - len(last) - 1
counts = {"u": 0, "x": 0, "d": 0}
lengths = 0
seen = set(docket.clauses.values())


def resolve():
    """A granted resolve with a new clause, or None."""
    numbers = list(docket.clauses)
    for _ in range(50):
        left = rng.choice(numbers if rng.random() < 0.5 else numbers[-60:])
        right = docket.partner(rng, left)
        if right is None:
            continue
        clause, refusal = docket.resolvent(left, right)
        if refusal is None and 0 < len(clause) <= options.longest and clause not in seen:
            return left, right, clause
    return None


while sum(counts.values()) + 1 < options.steps:
    spent = NUMBERS - docket.given < 8
    chance = rng.random()
    if spent or docket.cells > CELLS - 100 or (chance < options.strikes and len(docket.clauses) > 100):
        number = rng.choice(list(docket.clauses))
        line = f"x {number}"
        act = lambda: docket.strike(number)
    elif chance < options.strikes + 0.015:
        operands = [rng.randint(1, docket.signals) for _ in range(2)]
        code = rng.choice([1, 7, 9, 6])
        line = f"d {docket.signals + 1} {code} {operands[0]} {operands[1]}"
        act = lambda: docket.define(code, operands)
    else:
        found = resolve()
        if found is None:
            continue
        left, right, clause = found
        seen.add(clause)
        line = f"u {left} {right}"
        lengths += len(clause)
        act = lambda: docket.write(clause)
    if len(line) + 1 > room or len(docket.clauses) < 2:
        break
    act()
    room -= len(line) + 1
    counts[line[0]] += 1
    lines.append(line)

text = "\n".join(lines + [last]) + "\n"
sys.stdout.write(text)
print(
    f"seed {options.seed}: {len(text)} bytes, {options.gates} gates, {counts['u']} resolves (mean length {lengths / max(1, counts['u']):.1f}), "
    f"{counts['x']} strikes, {counts['d']} defines, 1 setting; {docket.given} numbers given",
    file=sys.stderr,
)
