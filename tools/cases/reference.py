"""What the program must print of a page and a script, reckoned without it.

The page is read bit by bit, straps are kept as pairs, and a split is found twice: by orders and contractions with plain
dictionaries, and, where few modules are left, by trying every lawful split, whose lowest price has to be the same.
"""
import itertools

STOP_WIRES = 2**64 - 1
STOP_PART = 2**32 - 1


class Refused(Exception):
    def __init__(self, number, bit=0):
        self.number, self.bit = number, bit


class Kind:
    """A price kind: zero, how two prices are joined, the price of a field and the word that is printed."""

    def __init__(self, number):
        self.number = number
        self.zero = (0, 0) if number == 2 else 0

    def field(self, value):
        return (value >> 16, value & 0xFFFF) if self.number == 2 else value

    def join(self, a, b):
        if self.number == 1:
            return min(a + b, STOP_WIRES)
        if self.number == 3:
            return max(a, b)
        if a[0] + b[0] > STOP_PART:
            return (STOP_PART, STOP_PART)
        return (a[0] + b[0], min(a[1] + b[1], STOP_PART))

    def total(self, prices):
        joined = self.zero
        for price in prices:
            joined = self.join(joined, price)
        return joined

    def word(self, price):
        return price[0] << 32 | price[1] if self.number == 2 else price


def read_page(data):
    """The kind, the number of modules and the nets of a page, or its first fault."""
    data = data[:54148]
    at = 0

    def field(width):
        nonlocal at
        if at + width > 8 * len(data):
            raise Refused(1, at)
        value = 0
        for bit in range(at, at + width):
            value = value * 2 + (data[bit // 8] >> (7 - bit % 8) & 1)
        at += width
        return value

    number = field(4)
    if number not in (1, 2, 3):
        raise Refused(2, 0)
    kind = Kind(number)
    modules = field(7)
    if modules > 64:
        raise Refused(3, 4)
    count = field(11)
    if count > 1024:
        raise Refused(4, 11)
    nets = []
    for _ in range(count):
        start = at
        size = field(7)
        if size < 2:
            raise Refused(6, start)
        pins = []
        for _ in range(size):
            start = at
            pin = field(6)
            if pin >= modules:
                raise Refused(7, start)
            if pin in pins:
                raise Refused(8, start)
            pins.append(pin)
        nets.append((set(pins), kind.field(field(32))))
    for bit in range(at, -(-at // 8) * 8):
        if data[bit // 8] >> (7 - bit % 8) & 1:
            raise Refused(9, bit)
    if 8 * len(data) > -(-at // 8) * 8:
        raise Refused(9, -(-at // 8) * 8)
    return kind, modules, nets


def groups_of(modules, straps):
    """The groups, each by its lowest module."""
    groups = [{module} for module in range(modules)]
    for a, b in straps:
        first = next(group for group in groups if a in group)
        second = next(group for group in groups if b in group)
        if first is not second:
            groups.remove(second)
            first |= second
    return sorted(groups, key=min)


def crossing(kind, side, nets):
    return kind.total(price for pins, price in nets if pins & side and pins - side)


def order(kind, groups, nets):
    """The groups in their order: always the one most pulled by those taken, the first on equal pulls."""
    whole = {module: place for place, group in enumerate(groups) for module in group}
    grouped = [({whole[pin] for pin in pins}, price) for pins, price in nets]
    taken = [0]
    while len(taken) < len(groups):
        pull = {v: kind.zero for v in range(len(groups)) if v not in taken}
        have = set(taken)
        for pins, price in grouped:
            outside = pins - have
            if len(outside) == 1 and len(pins) > 1:
                (v,) = outside
                pull[v] = kind.join(pull[v], price)
        best = min(pull)
        for v in sorted(pull):
            if pull[v] > pull[best]:
                best = v
        taken.append(best)
    return [groups[place] for place in taken]


def split(kind, modules, straps, nets):
    """The modules on board B and the price; None where no split is lawful."""
    groups = groups_of(modules, straps)
    if len(groups) < 2:
        return None
    every = None
    if len(groups) <= 10:
        sides = (set().union(*some) for size in range(1, len(groups)) for some in itertools.combinations(groups[1:], size))
        every = min(crossing(kind, side, nets) for side in sides)
    noted = []
    while len(groups) > 1:
        ordered = order(kind, groups, nets)
        noted.append((ordered[-1], crossing(kind, ordered[-1], nets)))
        groups = sorted([group for group in groups if group not in ordered[-2:]] + [ordered[-2] | ordered[-1]], key=min)
    best = noted[0]
    for one in noted[1:]:
        if one[1] < best[1]:
            best = one
    assert every is None or every == best[1], "the contractions missed the cheapest split"
    return best


def number(text):
    if not 1 <= len(text) <= 4 or not all("0" <= digit <= "9" for digit in text) or (len(text) > 1 and text[0] == "0"):
        raise Refused(18)
    return int(text)


class Plan:
    def __init__(self, kind, modules, nets):
        self.kind, self.modules, self.nets, self.changes = kind, modules, nets, []

    def straps(self):
        return [change for change in self.changes if isinstance(change, tuple)]

    def run(self, line):
        words = line.split(" ")
        if words[0] == "s" and len(words) == 3:
            a, b = number(words[1]), number(words[2])
            if max(a, b) >= self.modules:
                raise Refused(11)
            if any({a, b} <= group for group in groups_of(self.modules, self.straps())):
                raise Refused(12)
            self.add((a, b))
        elif words[0] == "m" and len(words) == 2:
            net = number(words[1])
            if net >= len(self.nets):
                raise Refused(13)
            if net in self.changes:
                raise Refused(14)
            self.add(net)
        elif words == ["b"]:
            if not self.changes:
                raise Refused(16)
            self.changes.pop()
        elif words == ["p"]:
            nets = [net for place, net in enumerate(self.nets) if place not in self.changes]
            found = split(self.kind, self.modules, self.straps(), nets)
            if found is None:
                raise Refused(17)
            side, price = found
            return f"ok {sum(1 << 63 - module for module in side):016x} {self.kind.word(price):016x}"
        else:
            raise Refused(18)
        return "ok"

    def add(self, change):
        if len(self.changes) == 64:
            raise Refused(15)
        self.changes.append(change)


def printed(page, script):
    try:
        plan = Plan(*read_page(page))
    except Refused as fault:
        return f"page no {fault.number} at {fault.bit}\n"
    if len(script) > 65536:
        return "script no 10\n"
    lines = script.split(b"\n")
    if lines[-1] == b"":
        lines.pop()
    answers = []
    for line in lines:
        try:
            answers.append(plan.run(line.decode("latin-1")))
        except Refused as fault:
            answers.append(f"no {fault.number}")
    return "".join(answer + "\n" for answer in answers)
