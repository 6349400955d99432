"""What policies are made of: chance, attributes, trees of elements, and targets."""

OVERRIDES = ["deny-overrides", "permit-overrides"]
FIRST = "first-applicable"
ONE = "only-one-applicable"


class Chance:
    """splitmix64: Python's own generator may give other numbers in another version."""

    def __init__(self, seed):
        self.state = seed

    def below(self, n):
        self.state = (self.state + 0x9E3779B97F4A7C15) & (2**64 - 1)
        z = self.state
        z = ((z ^ (z >> 30)) * 0xBF58476D1CE4E5B9) & (2**64 - 1)
        z = ((z ^ (z >> 27)) * 0x94D049BB133111EB) & (2**64 - 1)
        return (z ^ (z >> 31)) % n

    def between(self, low, high):
        return low + self.below(high - low + 1)

    def percent(self, p):
        return self.below(100) < p

    def pick(self, items):
        return items[self.below(len(items))]


class Attribute:
    """`A`: a request holds one of its values; `M`: a set of them."""

    def __init__(self, name, values, letter="A"):
        self.name, self.values, self.letter = name, values, letter
        self.count = 2 ** len(values) - 1 if letter == "M" else len(values)

    def held(self, number):
        """The values of a request's field as bits."""
        return number + 1 if self.letter == "M" else 1 << number


class Element:
    def __init__(self, kind, depth, word):
        self.kind, self.depth, self.word = kind, depth, word
        self.name = ""
        self.target = []
        self.children = []

    def all(self):
        yield self
        for child in self.children:
            yield from child.all()


def names(chance, style, letter, count):
    """Short ones; each the start of the next; or any."""
    if style == 0:
        return [letter + str(i) for i in range(count)]
    if style == 1:
        return [letter * (i + 1) for i in range(count)]
    made = []
    while len(made) < count:
        name = "".join(chance.pick("abcdefghijklmnopqrstuvwxyz0123456789-") for _ in range(chance.between(1, 16)))
        if name[0] != "-" and name not in made:
            made.append(name)
    return made


def space_of(declared):
    space = 1
    for attribute in declared:
        space *= attribute.count
    return space


def declare(chance, shape):
    """Attributes of these letters and so many values."""
    style = chance.pick([0, 0, 0, 0, 0, 1, 2])
    own = names(chance, 2 if style == 2 else 0, "a", len(shape))
    return [Attribute(own[i], names(chance, style, "uvwxyz"[i], n), letter) for i, (letter, n) in enumerate(shape)]


def attributes(chance, count):
    """Value counts with a space of 2 to 64."""
    while True:
        counts = [chance.pick([1, 2, 2, 2, 3, 3, 4, 5] if count > 1 else [2, 3, 4, 6, 8, 16]) for _ in range(count)]
        space = 1
        for n in counts:
            space *= n
        if 2 <= space <= 64 and (count < 3 or space >= 8):
            return declare(chance, [("A", n) for n in counts])


def attributes_with_sets(chance, count):
    """At least one `M` of two values or more, in any place; a space of 3 to 105."""
    sizes = {"A": [1, 2, 2, 3, 4], "M": [1, 2, 2, 2, 3, 3, 4] if count > 1 else [2, 3, 4, 5, 6]}
    while True:
        letters = [chance.pick("AM") if count > 1 else "M" for _ in range(count)]
        shape = [(letter, chance.pick(sizes[letter])) for letter in letters]
        space = space_of([Attribute("", range(n), letter) for letter, n in shape])
        if space <= 105 and (count < 3 or space >= 8) and any(letter == "M" and n > 1 for letter, n in shape):
            return declare(chance, shape)


def word_of(chance, kind, depth, words):
    """Words by depth, the last ones for all that is deeper."""
    here = words[min(depth, len(words) - 1)]
    return chance.pick([word for word in here if kind == "S" or word != ONE] or OVERRIDES)


def below(parent, chance, words, last, sets=45):
    """A child in a random place: a rule of a policy; a policy, or above the last depth a set, of a set."""
    depth = parent.depth + 1
    if parent.kind == "P":
        child = Element("R", depth, chance.pick(["permit", "deny"]))
    else:
        kind = "S" if depth + 2 <= last and chance.percent(sets) else "P"
        child = Element(kind, depth, word_of(chance, kind, depth, words))
    parent.children.insert(chance.between(0, len(parent.children)), child)
    return child


def tree(chance, kind, size, last, words, empty):
    """About so many elements, rules at most at the last depth; every second deep tree starts with a branch so deep."""
    root = Element(kind, 0, word_of(chance, kind, 0, words))
    made = [root]
    while last > 5 and made[-1].kind != "R" and (len(made) > 1 or chance.percent(50)):
        made.append(below(made[-1], chance, words, last, 100))
    while len(made) < size:
        room = [e for e in made if e.kind == "P" or e.kind == "S" and e.depth + 2 <= last]
        policies = [e for e in room if e.kind == "P"]
        if policies and chance.percent(65):
            room = policies
        elif chance.percent(30):
            deepest = max(e.depth for e in room)
            room = [e for e in room if e.depth == deepest]
        made.append(below(chance.pick(room), chance, words, last))
    for element in made:
        if element.kind != "R" and not element.children and not (empty and chance.percent(50)):
            made.append(below(element, chance, words, last))
    return root


def aim(chance, root, declared):
    """Targets: how open they are is the policy's own; sets and policies have wider ones than rules, most in deep trees."""
    open_, in_ = chance.pick([15, 30, 50]), chance.pick([40, 55, 75])
    deep = max(element.depth for element in root.all()) > 5
    for element in root.all():
        wider = 0 if element.kind == "R" else 45 if deep else 30
        element.target = []
        for attribute in declared:
            size = len(attribute.values)
            mask = sum(1 << i for i in range(size) if chance.percent(in_ + wider // 2))
            if mask == 0:
                mask = 1 << chance.below(size)
            element.target.append((1 << size) - 1 if chance.percent(open_ + wider) else mask)
