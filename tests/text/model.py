"""A plan's text, read and written separately from the programs encode and decode: the form of a text, and documents 01 and 02 once more
for the bytes."""

import re

LONGEST = 65_536
# From here on a number is told as so many or more.
COUNTLESS = 2**64 - 2

# The words of a line by its first, each with a number behind it, and whether it may be left out; clocks has no number of its own.
WORDS = {
    "format": {"format": False},
    "guard": {"guard": False},
    "top": {"top": False},
    "port": {"port": False, "rate": False, "blocker": True, "extra": True},
    "flow": {"flow": False, "period": False, "count": True, "length": False, "jitter": True, "route": False},
    "clocks": {"drift": False, "timing": False, "sync": False},
}
DEFAULTS = {"blocker": 0, "extra": 0, "count": 1, "jitter": 0}
RANGES = {
    "format": (2, 2),
    "guard": (0, 1_000_000),
    "top": (1, 100_000_000),
    "port": (1, 64),
    "rate": (1, 100_000),
    "blocker": (64, 2_000),  # or 0
    "extra": (0, 64),
    "flow": (1, 256),
    "period": (1_000, 100_000_000),
    "count": (1, 64),
    "length": (64, 2_000),
    "jitter": (0, 10_000_000),
    "drift": (0, 1_000),
    "timing": (0, 1_000),
    "sync": (0, 1_000_000),
}


class Refused(Exception):
    """A text that is no plan: the message, and its line where that is not the one at hand."""


class Plan:
    """Rows of numbers in the order of a line's words, a flow's route last: ports and flows by number."""

    def __init__(self, newer, guard, top, ports, flows, clocks):
        self.newer, self.guard, self.top, self.ports, self.flows, self.clocks = newer, guard, top, ports, flows, clocks


def rows(text):
    """The words of each line."""
    *lines, last = text.split(b"\n")
    lines = [line[:-1] if line.endswith(b"\r") else line for line in lines] + ([last] if last else [])
    return [re.findall(r"[^ \t]+", line.split(b"#")[0].decode("latin-1")) for line in lines]


def spelled(words):
    """The words that stand for each number of a line, by name: several for the route, none for a number that is not there."""
    found, at = {}, 1 if words[0] == "clocks" else 0
    for name, optional in WORDS[words[0]].items():
        if words[at : at + 1] == [name]:
            upto = len(words) if name == "route" else at + 2
            found[name], at = words[at + 1 : upto], upto
        elif not optional:
            raise Refused(f"the word {name} is missing")
    if at < len(words):
        raise Refused("nothing more belongs on this line")
    return found


def number(word):
    digits = word.lstrip("0") or "0"
    return COUNTLESS if len(digits) > 20 else min(int(digits), COUNTLESS)


def numbers(found):
    """The numbers of a line, by name."""
    for name, words in found.items():
        if not words or not all(re.fullmatch("[0-9]+", word) for word in words):
            raise Refused("the route is not a row of numbers" if name == "route" else f"{name} is not a number")
    line = {name: [number(word) for word in words] for name, words in found.items()}
    return {name: row if name == "route" else row[0] for name, row in line.items()}


def in_range(name, n):
    low, high = RANGES[name]
    if low <= n <= high or (name == "blocker" and n == 0):
        return
    told = f"{n} or more" if n == COUNTLESS else n
    allowed = {"blocker": f"0 or {low} to {high}", "format": "2"}.get(name, f"{low} to {high}")
    raise Refused(f"{name} {told} is not {allowed}")


def ranges(line, most):
    for name, n in line.items():
        if name != "route":
            in_range(name, n)
    route = line.get("route", [])
    if len(route) > most:
        raise Refused(f"a route of {len(route)} ports is too long: at most 16, or 24 behind format 2")
    for hop in route:
        in_range("port", hop)


def read_line(said, words):
    """What a line behind those said is about, and its numbers by name."""
    first = words[0]
    if first not in WORDS or (first == "format" and said.keys() - {"format"}):
        raise Refused("the first word is not guard, top, port, flow, clocks, or format before all others")
    line = numbers(spelled(words))
    ranges(line, 24 if "format" in said else 16)
    about = f"{first} {line[first]}" if first in ("port", "flow") else first
    if about in said:
        raise Refused(f"{about} is said again")
    if len(set(line.get("route", []))) < len(line.get("route", [])):
        raise Refused("the route names a port twice")
    return about, line


def whole(said, after):
    """That nothing is missing behind the last line, and every port of a route is there."""
    for name in ("guard", "top", "flow"):
        if not any(about.startswith(name) for about in said):
            raise Refused(f"{name} is missing", after)
    for at, line in said.values():
        for hop in line.get("route", []):
            if f"port {hop}" not in said:
                raise Refused(f"port {hop} is not in the plan", at)


def planned(said):
    """The plan that the lines say."""
    tables = {first: {} for first in WORDS}
    for about, (_, line) in said.items():
        first = about.split()[0]
        number, *others = [line.get(name, DEFAULTS.get(name)) for name in WORDS[first]]
        tables[first][number] = others
    clocks = [[drift, *others] for drift, others in tables["clocks"].items()]
    return Plan("format" in said, *tables["guard"], *tables["top"], tables["port"], tables["flow"], *(clocks or [[0, 0, 0]]))


def read(text):
    """The plan that a text says."""
    said, at, found = {}, 1, []
    try:
        if len(text) > LONGEST:
            raise Refused(f"the text has over {LONGEST} bytes")
        found = rows(text)
        for at, words in enumerate(found, 1):
            if words:
                about, line = read_line(said, words)
                said[about] = at, line
        whole(said, len(found) + 1)
    except Refused as refused:
        message, line = (*refused.args, at)[:2]
        raise Refused(f"line {line}: {message}") from None
    return planned(said)


def field(tag, *values):
    """A field of pairs: the bytes of a number, and the number."""
    value = b"".join(n.to_bytes(size, "big") for size, n in values)
    return bytes([tag]) + len(value).to_bytes(2, "big") + value


def fields(plan):
    """The plan's fields in strict order, in its form, as it is saved."""
    header, clocks = [(4, plan.guard), (4, plan.top)], [(4, n) for n in plan.clocks]
    ports, flows, late = [], [], []
    for n, (rate, blocker, extra) in sorted(plan.ports.items()):
        last = [(2, extra)] if plan.newer else []
        ports.append(field(0x12 if plan.newer else 0x02, (2, n), (4, rate), (2, blocker), *last))
        late += [field(0x04, (2, n), (2, extra))] if extra else []
    for n, (period, count, length, jitter, route) in sorted(plan.flows.items()):
        last = ([(4, jitter)] if plan.newer else []) + [(2, hop) for hop in route]
        flows.append(field(0x13 if plan.newer else 0x03, (2, n), (4, period), (2, count), (2, length), *last))
        late += [field(0x05, (2, n), (4, jitter))] if jitter else []
    if plan.newer:
        return [field(0x11, *header, *clocks), *ports, *flows]
    return [field(0x01, *header), *ports, *flows, *late, *([field(0x06, *clocks)] if any(plan.clocks) else [])]


def spoken(first, *values):
    """A line as it is printed: what may be left out is."""
    words = [first] if first == "clocks" else []
    for name, n in zip(WORDS[first], values):
        if DEFAULTS.get(name) != n:
            words += [name, *map(str, n if name == "route" else [n])]
    return " ".join(words) + "\n"


def write(plan):
    """The text that is printed of a plan."""
    lines = [spoken("format", 2)] if plan.newer else []
    lines += [spoken("guard", plan.guard), spoken("top", plan.top)]
    lines += [spoken("port", n, *port) for n, port in sorted(plan.ports.items())]
    lines += [spoken("flow", n, *flow) for n, flow in sorted(plan.flows.items())]
    lines += [spoken("clocks", *plan.clocks)] if any(plan.clocks) else []
    return "".join(lines).encode()
