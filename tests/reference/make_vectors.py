#!/usr/bin/env python3
"""Makes crates/vectors: the policy files, their names, what the reference program prints of each, and lists for the writer.

Usage: make_vectors.py [--check]. The same bytes come out each time; --check writes nothing and tells whether they are
those that are there. In the texts below spaces stand for tabs.
"""
import pathlib
import random
import subprocess
import sys
import tempfile

import obliged_files  # noqa: F401 (adds its files)
import refused_files  # noqa: F401 (adds its files)
from accepted_files import CUBE, LETTERS, LONG, add, all_but_one, attribute, files

HERE = pathlib.Path(__file__).resolve().parent
CRATE = HERE.parent.parent / "crates" / "vectors"

# Reports on both sides of 65,536 bytes. Each of 32 empty policies applies to 240 of the 256 segments; each of 16 narrow
# ones to a single one, so that its name stands in the report once: their lengths find any size.

def wide_report(wide, narrow):
    text = attribute("x", LETTERS) + attribute("y", LETTERS) + "S 0 top deny-overrides * *\n"
    sizes = iter(wide)
    for prefix, number, target in [*all_but_one("x", 0, 2), *all_but_one("y", 1, 2)]:
        text += f"P 1 {(prefix + LETTERS[number]).ljust(next(sizes), '-')} first-applicable {' '.join(target)}\n"
    text += "P 1 rules first-applicable * *\nR 2 r1 permit a,b c\nR 2 r2 deny b *\nR 2 r3 deny b d\n"
    for number, letter in enumerate(LETTERS):
        text += f"P 1 {('n' + letter).ljust(narrow[number], '-')} first-applicable {letter} {LETTERS[15 - number]}\n"
    return text.replace(" ", "\t").encode()


def output_of(program, data):
    return subprocess.run([program], input=data, stdout=subprocess.PIPE, check=True).stdout


def report_length(program, data):
    output = output_of(program, data)
    fields = output.split()
    return int(fields[2]) if output.startswith(b"E\t11\t") else len(output)


def report_of(program, size):
    wide, narrow = [2] * 32, [2] * 16
    missing = size - report_length(program, wide_report(wide, narrow))
    for sizes, each in ((wide, 240), (narrow, 1)):
        for number in range(len(sizes)):
            more = min(14, missing // each)
            sizes[number] += more
            missing -= more * each
    data = wide_report(wide, narrow)
    assert report_length(program, data) == size, (missing, report_length(program, data))
    return data


def far_too_long():
    text = CUBE + f"S 0 {'top'.ljust(16, '-')} deny-overrides * * *\n"
    for at, prefix in enumerate("xyz"):
        for _, number, target in all_but_one(prefix, at, 3):
            text += f"P 1 {(prefix + LETTERS[number]).ljust(16, '-')} first-applicable {' '.join(target)}\n"
    for number in range(15):
        text += f"P 1 {f'p{number}'.ljust(16, '-')} first-applicable * * *\n"
    return text


# Random policies of mixed shapes over small spaces.

ALGORITHMS = ("deny-overrides", "permit-overrides", "first-applicable", "only-one-applicable")


def random_counts():
    counts, space = [], 1
    for _ in range(random.randint(1, 6)):
        count = random.choice([count for count in (1, 2, 2, 3, 4, 6) if space * count <= 24])
        counts.append(("A", count))
        space *= count
    return counts


def random_counts_with_sets():
    """At least one M, in any place; a space of up to 120."""
    counts, space, attributes = [], 1, random.randint(1, 6)
    must = random.randrange(attributes)
    for at in range(attributes):
        letter = "M" if at == must else random.choice("AMM")
        sizes = {count: 2**count - 1 if letter == "M" else count for count in (1, 2, 3, 4)}
        count = random.choice([count for count, size in sizes.items() if space * size <= 120])
        counts.append((letter, count))
        space *= sizes[count]
    return counts


def random_policy(seed, choose_counts):
    random.seed(f"policy-{seed}")
    counts = choose_counts()
    values = [[f"{'abcdef'[at]}{number}" for number in range(count)] for at, (_, count) in enumerate(counts)]
    text = "".join(attribute(f"attribute-{at}", some, counts[at][0]) for at, some in enumerate(values))

    def target(some):
        if len(some) == 1 or random.random() < 0.45:
            return "*"
        picked = [value for value in some if random.random() < 0.5]
        return ",".join(picked) if 0 < len(picked) < len(some) else random.choice(some)

    size = random.choice((2, 5, 8, 12, 16, 24))
    path = []  # kinds of the last element and of all above it
    for number in range(size):
        if number == 0:
            kind, depth = random.choice("SSSP"), 0
        else:
            places = [depth for depth in range(1, len(path) + 1) if depth <= 7 and path[depth - 1] != "R"]
            depth = random.choice(places + [places[-1]] * 3)
            kind = "R" if path[depth - 1] == "P" else random.choice("SPP")
        path = path[:depth] + [kind]
        word = random.choice(("permit", "deny") if kind == "R" else ALGORITHMS[:3] if kind == "P" else ALGORITHMS)
        own = ["*" if depth == 0 and random.random() < 0.7 else target(some) for some in values]
        text += f"{kind} {depth} {kind.lower()}{number} {word} {' '.join(own)}\n"
    return text


def obliged(seed, text):
    """With obligations of few names on most sets and policies, so that elements share them."""
    random.seed(f"obligations-{seed}")
    names = random.choice((("log",), ("log", "Log"), ("log", "slow", "lamp", "Slow")))
    lines = []
    for line in text.splitlines(keepends=True):
        lines.append(line)
        if line[0] in "SP" and random.random() < 0.75:
            chosen = {name.lower(): name for name in random.choices(names, k=random.randint(1, 2))}
            lines += [f"O {name} {random.choice(('permit', 'permit', 'deny'))}\n" for name in chosen.values()]
    return "".join(lines)


for seed in range(30):
    add(f"random-{seed:02}", random_policy(seed, random_counts))
for seed in range(30, 50):
    add(f"random-{seed:02}", random_policy(seed, random_counts_with_sets))
for seed in range(50, 90):
    add(f"random-{seed:02}", obliged(seed, random_policy(seed, random_counts if seed < 75 else random_counts_with_sets)))


LISTS = 400


def build(program, *parts):
    sources = [HERE / f"{name}.c" for name in parts]
    subprocess.run(["cc", "-std=c99", "-Wall", "-Wextra", "-O2", "-o", program, *sources], check=True)


def lists_and_answers(scratch):
    """Lists for the writer, and the lines that must be printed of them."""
    program, lists, answers = (pathlib.Path(scratch) / name for name in ("make_lists", "lists", "answers"))
    build(program, "make_lists", "lists", "damage_places", "generate", "edge_files", "obliged_files", "requests", "damage",
          "damage_obligations", "sets", "letter_case", "text", "read", "decide", "obligations", "write", "output")
    subprocess.run([program, "1", str(LISTS), lists, answers], check=True, stdout=subprocess.DEVNULL)
    return lists.read_bytes(), answers.read_bytes()


def made():
    """Every file of the crate that is made here, with its bytes."""
    with tempfile.TemporaryDirectory() as scratch:
        program = f"{scratch}/reference_program"
        build(program, "reference_program", "read", "decide", "obligations", "trim", "report", "output")
        add("report-of-65536-bytes", report_of(program, 65536))
        add("report-of-65537-bytes", report_of(program, 65537))
        add("report-far-too-long", far_too_long())
        add("report-of-992-conflicts", attribute("x", LETTERS), f"P 0 {LONG} permit-overrides *\n",
            *(f"R 1 {f'rule-{number}'.ljust(16, '-')} {'deny' if number % 2 else 'permit'} *\n"
              for number in range(63)))
        names = sorted(files)
        printed = b"".join(name.encode() + b"\n" + output_of(program, files[name]) for name in names)
        lists, answers = lists_and_answers(scratch)
    made = {CRATE / "data" / name: files[name] for name in names}
    made[CRATE / "data" / "lists"] = lists
    made[CRATE / "args"] = "".join(f"{name}\n" for name in (*names, "lists")).encode()
    made[CRATE / "stdout"] = printed + b"lists\n" + answers
    return made


def main():
    check = sys.argv[1:] == ["--check"]
    others = 0
    wanted = made()
    for path, data in wanted.items():
        if not check:
            path.write_bytes(data)
        elif path.read_bytes() != data:
            print("other bytes:", path.relative_to(CRATE))
            others += 1
    for path in sorted(set((CRATE / "data").iterdir()) - set(wanted)):
        print("not made here:", path.relative_to(CRATE))
        others += 1
    print(len(files), "stored files and", LISTS, "lists", "compared with the reference's output" if check else "written")
    return others != 0


if __name__ == "__main__":
    sys.exit(main())
