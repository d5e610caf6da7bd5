"""Plans at random, of either form, and the many spellings of a plan's text and of its bytes."""

from model import DEFAULTS, RANGES, WORDS, Plan, field, fields

MOST_BYTES = 16_384


def value(random, name):
    """A number in its range, often an end of it, often one that may be left out."""
    low, high = RANGES[name]
    ends = [low, high, random.randint(low, high), random.randint(low, min(high, low + 20))]
    return random.choice(ends + ([DEFAULTS[name]] * 3 if name in DEFAULTS else []))


def values(random, *names):
    return [value(random, name) for name in names]


def route(random, ports, most):
    """Some ports in any order, often as many as there may be."""
    longest = min(most, len(ports))
    return random.sample(ports, random.choice([1, longest, random.randint(1, longest)]))


def any_plan(random, few=False):
    """A plan of either form, small where few is asked for."""
    newer = random.random() < 0.5
    most = 24 if newer else 16
    numbers = random.sample(range(1, 65), random.choice([1, 2, 3] if few else [1, 2, 3, 16, 24, 30, 64]))
    ports = {n: values(random, "rate", "blocker", "extra") for n in numbers}
    names = random.sample(range(1, 257), random.choice([1, 2, 3] if few else [1, 1, 2, 2, 3, 4, 5, 9, random.choice([20, 256])]))
    flows = {n: [*values(random, "period", "count", "length", "jitter"), route(random, numbers, most)] for n in names}
    clocks = random.choice([[0, 0, 0], values(random, "drift", "timing", "sync")])
    plan = Plan(newer, *values(random, "guard", "top"), ports, flows, clocks)
    return plan if len(b"".join(fields(plan))) <= MOST_BYTES else any_plan(random, few)


def zeros(random, plan):
    """Fields of the older form that say what their absence says."""
    found = [field(0x04, (2, n), (2, 0)) for n, port in plan.ports.items() if port[2] == 0]
    found += [field(0x05, (2, n), (4, 0)) for n, flow in plan.flows.items() if flow[3] == 0]
    found += [] if any(plan.clocks) else [field(0x06, (4, 0), (4, 0), (4, 0))]
    return random.sample(found, random.choice([0, len(found) // 2, len(found)]))


def any_bytes(random, plan):
    """A spelling of the plan's bytes: of the older form in any order."""
    row = fields(plan)
    if not plan.newer and random.random() < 0.7:
        row += zeros(random, plan)
        random.shuffle(row)
    return b"".join(row)


def line(random, first, row):
    """The words of a line; what may be left out is, or is said."""
    words = [first] if first == "clocks" else []
    for name, n in zip(WORDS[first], row):
        if DEFAULTS.get(name) != n or random.random() < 0.5:
            words += [name, *map(str, n if name == "route" else [n])]
    return words


def lines(random, plan):
    """The lines of a plan, each a row of words, in any order behind the one that asks for the newer form."""
    rows = [("guard", [plan.guard]), ("top", [plan.top])]
    rows += [("port", [n, *port]) for n, port in plan.ports.items()]
    rows += [("flow", [n, *flow]) for n, flow in plan.flows.items()]
    rows += [("clocks", plan.clocks)] if any(plan.clocks) or random.random() < 0.5 else []
    random.shuffle(rows)
    return [line(random, *row) for row in ([("format", [2])] if plan.newer else []) + rows]


def word(random, text):
    """A word as it may be spelled: a number with zeros before it."""
    return "0" * random.choice([0, 0, 0, 1, 2, 25]) + text if text.isdecimal() else text


def comment(random):
    return random.choice(["#", "# guard 5", "#port 1 rate 100", "# a # b\tc", "#\r", "# \x00\xff\x7f", "#" * 70])


def nothing(random):
    """Lines that say nothing, mostly none."""
    return random.choice([[], [], [], [""], [" \t "], [comment(random)], ["\t" + comment(random), ""]])


def spelling(random, rows):
    """A text of these rows of words: spaces and tabs, comments, lines that say nothing, ends of lines of either kind."""
    spelled = nothing(random)
    for row in rows:
        between = [random.choice([" ", " ", "\t", "  ", " \t \t"]) for _ in row]
        words = "".join(word(random, text) + gap for text, gap in zip(row, between))
        before, behind = random.choice(["", "", " ", "\t"]), random.choice(["", "", comment(random)])
        spelled += [before + (words if random.random() < 0.3 else words.rstrip(" \t")) + behind, *nothing(random)]
    ends = random.choice([["\n"], ["\r\n"], ["\n", "\r\n"]])
    text = "".join(part + random.choice(ends) for part in spelled)
    return (text.rstrip("\r\n") if random.random() < 0.2 else text).encode("latin-1")
