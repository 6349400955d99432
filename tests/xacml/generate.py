#!/usr/bin/env python3
"""Policies for the engine, in the project's format, each ended by a line `=`. The same on every run.

    generate.py direct         deny-overrides and permit-overrides; every set and policy has children
    generate.py encoded        all four algorithms, empty sets and policies too
    generate.py sets           as direct, with attributes `M`, of which a request holds a set of values
    generate.py encoded-sets   as encoded, with attributes `M`

Of several candidates the one with the most elements that do work is taken: a random policy mostly hangs on a few of its
lines, and then a wrong decision elsewhere does not show. What a policy decides is worked out here for this choice alone;
no decision is written.
"""
import itertools
import sys

from trees import (FIRST, ONE, OVERRIDES, Attribute, Chance, Element, aim, attributes, attributes_with_sets, names,
                   space_of, tree)

CANDIDATES = 4


def matches(element, declared):
    """The requests in the target, as bits."""
    weight = total = space_of(declared)
    found = (1 << total) - 1
    for mask, attribute in zip(element.target, declared):
        weight //= attribute.count
        found &= sum(1 << r for r in range(total) if mask & attribute.held(r // weight % attribute.count))
    return found


def decide(element, here, without=None, opened=None, blind=False):
    """Requests permitted, denied, indeterminate; with one element left out, its target opened, or no indeterminate."""
    mine = -1 if element is opened else here[element]
    if element.kind == "R":
        return (mine, 0, 0) if element.word == "permit" else (0, mine, 0)
    p = d = i = seen = twice = 0
    for child in element.children:
        if child is without:
            continue
        cp, cd, ci = decide(child, here, without, opened, blind)
        if element.word == FIRST:
            free = ~(p | d | i)
            cp, cd, ci = cp & free, cd & free, ci & free
        match = -1 if child is opened else here[child]
        twice |= seen & match
        seen |= match
        p, d, i = p | cp, d | cd, i | ci
    if element.word == "deny-overrides":
        d |= i
        p, i = p & ~d, 0
    elif element.word == "permit-overrides":
        d &= ~p
        i &= ~(p | d)
    elif element.word == ONE:
        p, d, i = p & ~twice, d & ~twice, 0 if blind else i | twice
    return p & mine, d & mine, i & mine


def worth(root, declared):
    """Of a hundred: elements whose leaving out, and whose target, changes a decision. More if a set combines an
    indeterminate into permit or deny."""
    here = {element: matches(element, declared) for element in root.all()}
    whole = decide(root, here)
    work = 0
    for element in root.all():
        work += element is not root and decide(root, here, without=element) != whole
        work += decide(root, here, opened=element) != whole
    blind = decide(root, here, blind=True)
    turned = any((a ^ b) & ~whole[2] for a, b in zip(blind, whole))
    return 100 * work // (2 * len(here)) + 50 * turned


def policy(chance, kind, size, last, count, words, empty, sets):
    best = None
    for _ in range(CANDIDATES):
        declared = attributes_with_sets(chance, count) if sets else attributes(chance, count)
        root = tree(chance, kind, size, last, words, empty)
        aim(chance, root, declared)
        found = worth(root, declared)
        if len(list(root.all())) <= 64 and (best is None or found > best[0]):
            best = (found, root, declared)
    return best


def write(chance, root, declared):
    own = {"S": "s", "P": "p", "R": "r"}
    long = names(chance, 2, "", 64) if chance.percent(8) else None
    lines = ["\t".join([attribute.letter, attribute.name] + attribute.values) for attribute in declared]
    for i, element in enumerate(root.all()):
        fields = [element.kind, str(element.depth), long[i] if long else own[element.kind] + str(i), element.word]
        for mask, attribute in zip(element.target, declared):
            full = mask == (1 << len(attribute.values)) - 1
            fields.append("*" if full else ",".join(v for k, v in enumerate(attribute.values) if mask >> k & 1))
        lines.append("\t".join(fields))
    return "\n".join(lines) + "\n=\n"


# shapes over children that give every list of decisions
LISTS = [[0], [0, 1], [0, 1, 2], [[0, 1], 2], [0, [1, 2]]]


def child(number, depth, count, unclear):
    """Permit, deny, not-applicable, and where asked indeterminate, by the four values of one attribute."""
    def field(mask):
        full = 15 if unclear else 7
        return [mask if i == number else full for i in range(count)]

    top = Element("S" if unclear else "P", depth, ONE if unclear else "deny-overrides")
    top.target = field(11 if unclear else 3)
    for word, mask in (("permit", 1), ("deny", 2)):
        rule = Element("R", depth + 1, word)
        rule.target = field(mask)
        top.children.append(rule)
        if unclear:
            above = Element("P", depth + 1, FIRST)
            above.target = field(mask | 8)
            rule.depth, rule.target = depth + 2, field(15)
            above.children, top.children[-1] = [rule], above
    return top


def listed(shape, words, depth, count, unclear):
    if isinstance(shape, int):
        return child(shape, depth, count, unclear)
    top = Element("S", depth, next(words))
    top.target = [15 if unclear else 7] * count
    top.children = [listed(part, words, depth + 1, count, unclear) for part in shape]
    return top


def every_list(chance, words, unclear):
    for shape in LISTS:
        sets = str(shape).count("[")
        count = len(str(shape).replace("[", "").split(","))
        declared = [Attribute("a" + str(i), ["p", "d", "n", "i"][: 4 if unclear else 3]) for i in range(count)]
        for chosen in itertools.product(words, repeat=sets):
            sys.stdout.write(write(chance, listed(shape, iter(chosen), 0, count, unclear), declared))


# shapes over which every target of a rule is taken
TARGETS = [[("M", 1)], [("M", 2)], [("M", 3)], [("M", 4)], [("M", 2)] * 2, [("M", 2), ("A", 2)], [("A", 2), ("M", 2)],
           [("M", 2), ("A", 2), ("M", 2)]]


def every_target(chance):
    for shape in TARGETS:
        declared = [Attribute("a" + str(i), ["p", "q", "r", "s"][:n], letter) for i, (letter, n) in enumerate(shape)]
        full = [(1 << n) - 1 for _, n in shape]
        for masks in itertools.product(*(range(1, mask + 1) for mask in full)):
            top, rule = Element("P", 0, "deny-overrides"), Element("R", 1, "permit")
            top.target, rule.target, top.children = full, list(masks), [rule]
            sys.stdout.write(write(chance, top, declared))


# how many; kind of the first element; elements; last depth; attributes; words by depth
DIRECT = [
    (600, "P", (2, 8), 1, (1, 4), [OVERRIDES]),
    (300, "P", (8, 24), 1, (2, 4), [OVERRIDES]),
    (450, "S", (4, 10), 2, (1, 4), [OVERRIDES]),
    (450, "S", (10, 26), 2, (2, 4), [OVERRIDES]),
    (550, "S", (6, 16), 5, (1, 4), [OVERRIDES]),
    (250, "S", (12, 36), 6, (2, 4), [OVERRIDES]),
    (400, "S", (12, 30), 7, (2, 4), [OVERRIDES]),
    (20, "S", (60, 60), 7, (3, 4), [OVERRIDES]),
    (150, "P", (3, 14), 1, (5, 6), [OVERRIDES]),
    (150, "S", (5, 26), 7, (5, 6), [OVERRIDES]),
]
ALL = OVERRIDES + [FIRST, ONE]
ENCODED = [
    (150, "P", (2, 16), 1, (1, 4), [[FIRST]]),
    (150, "S", (4, 16), 3, (1, 4), [[ONE, FIRST]]),
    (250, "S", (5, 20), 4, (1, 4), [ALL]),
    (250, "S", (8, 20), 4, (2, 3), [OVERRIDES + [FIRST], [ONE], ALL]),
    (200, "S", (8, 26), 6, (2, 4), [ALL]),
    (100, "S", (5, 20), 4, (5, 6), [ALL]),
]
SETS = [
    (200, "P", (2, 8), 1, (1, 4), [OVERRIDES]),
    (150, "P", (8, 24), 1, (2, 4), [OVERRIDES]),
    (200, "S", (4, 10), 2, (1, 4), [OVERRIDES]),
    (150, "S", (10, 26), 2, (2, 4), [OVERRIDES]),
    (250, "S", (6, 16), 5, (1, 4), [OVERRIDES]),
    (150, "S", (12, 30), 7, (2, 4), [OVERRIDES]),
    (100, "P", (3, 14), 1, (5, 6), [OVERRIDES]),
    (100, "S", (5, 26), 7, (5, 6), [OVERRIDES]),
]
ENCODED_SETS = [
    (80, "P", (2, 16), 1, (1, 4), [[FIRST]]),
    (120, "S", (4, 16), 3, (1, 4), [[ONE, FIRST]]),
    (120, "S", (5, 20), 4, (1, 4), [ALL]),
    (100, "S", (8, 20), 4, (2, 3), [OVERRIDES + [FIRST], [ONE], ALL]),
    (60, "S", (5, 20), 4, (5, 6), [ALL]),
]


def main():
    # seed, policies, whether all four algorithms, whether sets of values
    groups = {"direct": (1, DIRECT, False, False), "encoded": (2, ENCODED, True, False),
              "sets": (3, SETS, False, True), "encoded-sets": (4, ENCODED_SETS, True, True)}
    seed, made, all_four, sets = groups[sys.argv[1]]
    chance = Chance(seed)
    if not sets:
        every_list(chance, ALL if all_four else OVERRIDES, all_four)
    elif not all_four:
        every_target(chance)
    for number, kind, sizes, last, counts, words in made:
        for _ in range(number):
            best = None
            while best is None:
                best = policy(chance, kind, chance.between(*sizes), last, chance.between(*counts), words, all_four, sets)
            sys.stdout.write(write(chance, best[1], best[2]))


main()
