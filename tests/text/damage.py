"""Texts that are no plan's, or hardly: what a hand or a file may do to a text."""

from model import LONGEST, RANGES, WORDS

K = b"""guard 1000
top 1000000
port 1 rate 100
flow 1 period 100000 length 230 route 1
flow 2 period 110000 count 1 length 605 jitter 0 route 1
clocks drift 0 timing 0 sync 0
"""
# Every word there is.
ALL = b"""format 2
guard 1000
port 1 rate 100 blocker 1480 extra 16
port 2 rate 1000
flow 1 period 100000 count 2 length 230 jitter 5000 route 1 2
flow 2 period 110000 length 605 route 2
clocks drift 100 timing 10 sync 1000
top 1000000
"""
BYTES = b" \t\n\r#07a\0\xff"
NAMES = sorted({name for names in WORDS.values() for name in names} | {"clocks"})
NO_NUMBERS = ["-1", "+1", "1.0", "1,000", "1_000", "0x10", "1e3", "100ns", "one", "1\x00", "\xb2", "1\r1", '"1"', "\xd9\xa3", "/", ":"]
# Small numbers of another meaning, ends of what a machine's numbers hold, and numbers that are small again where those are left.
FAR = [0, 1, 2, 3, 2**16, 2**16 + 64, 2**31, 2**32 - 1, 2**32, 2**32 + 1000, 2**63, 10**19, 2**64 - 3, 2**64 - 2, 2**64 - 1, 2**64]
FAR += [2**64 + 1, 2**64 + 1000, 10**20 - 1, 10**20, 2**65 + 1000, 10 * 2**64 + 1000, 10**20 + 1000, 10**21, 2**128 + 1000, 10**40]


def bytes_damaged(text):
    """Each byte made another, dropped, doubled; cut short behind it."""
    for at in range(len(text)):
        yield from (text[:at] + bytes([byte]) + text[at + 1 :] for byte in BYTES)
        yield text[:at] + text[at + 1 :]
        yield text[: at + 1] + text[at:]
        yield text[:at]


def joined(lines):
    return b"".join(lines)


def lines_damaged(text):
    """Each line dropped, doubled in each place, exchanged with each other, without its end, moved to each place."""
    lines = text.splitlines(keepends=True)
    for at, line in enumerate(lines):
        others = lines[:at] + lines[at + 1 :]
        yield joined(others)
        yield joined(lines[:at] + [line.rstrip(b"\n")] + lines[at + 1 :])
        for to in range(len(lines) + 1):
            yield joined(lines[:to] + [line] + lines[to:])
            yield joined(others[:to] + [line] + others[to:])
        for other in range(at):
            exchanged = list(lines)
            exchanged[at], exchanged[other] = lines[other], line
            yield joined(exchanged)


def words_damaged(text):
    """Each word dropped, doubled, exchanged with each later one of its line, made each other word there is, written large."""
    lines = [line.split(b" ") for line in text.splitlines()]
    for at, words in enumerate(lines):
        for place, word in enumerate(words):
            rows = [words[:place] + words[place + 1 :], words[: place + 1] + words[place:], words[:place]]
            for later in range(place + 1, len(words)):
                exchanged = list(words)
                exchanged[place], exchanged[later] = words[later], word
                rows.append(exchanged)
            for other in [name.encode() for name in NAMES] + [word.upper(), word + b"s", word[:-1], b"1", b"x"]:
                rows.append(words[:place] + [other] + words[place + 1 :])
            yield from (joined(b" ".join(row) + b"\n" for row in lines[:at] + [row] + lines[at + 1 :]) for row in rows)


def near(name):
    """Spellings of a number: at the ends of its range and one past them, far off, with zeros before it, and none."""
    low, high = RANGES[name]
    row = [low - 1, low, low + 1, high - 1, high, high + 1, 63, 64, 2000, 2001, *FAR]
    spellings = [str(n) for n in row if n >= 0] + ["1" + "0" * 5000, "0" * 30 + str(high), "0" * 60_000 + str(low), "0" * 40]
    return dict.fromkeys(spellings + NO_NUMBERS + [""])


def numbers_damaged(text):
    """Each number of a text spelled in each way."""
    words = text.split(b" ")
    for at in range(len(words) - 1):
        name, behind = words[at].split(b"\n")[-1].decode(), words[at + 1].split(b"\n")
        for spelling in near("port" if name == "route" else name) if name in RANGES or name == "route" else ():
            changed = b"\n".join([spelling.encode("latin-1"), *behind[1:]])
            yield b" ".join([*words[: at + 1], changed, *words[at + 2 :]])


def routes():
    """Routes of few ports and of many, more than there are; with a port twice, and ports that are none; of a flow
    that is said again."""
    header = b"guard 1000\ntop 1000000\n"
    ports = [b"port %d rate 100\n" % n for n in range(1, 65)]
    for length in (1, 2, 3, 15, 16, 17, 18, 23, 24, 25, 26, 64, 65, 300, 20_000):
        row = [hop % 64 + 1 for hop in range(length)]
        for hops in (row, row[::-1], row[:-1] + row[:1], row[:-1] + [65], [0] + row[1:], [2**64] + row[1:]):
            flow = b"flow 9 period 100000 length 230 route " + b" ".join(b"%d" % hop for hop in hops) + b"\n"
            for first in (b"", b"format 2\n"):
                yield from (first + header + flow + joined(ports[:there]) for there in (2, length - 1, 64))
                yield first + header + joined(ports) + b"flow 9 period 1000 length 64 route 1\n" + flow


def padded(text, length):
    return text + b"#" * (length - len(text))


def sizes(text):
    """Texts around the longest, and texts of lines without words."""
    for length in (LONGEST - 1, LONGEST, LONGEST + 1, LONGEST + 4096, 2 * LONGEST, 1_000_000):
        yield padded(text, length)
        yield padded(text, length - 1) + b"\n"
        yield b"#" * (length - len(text) - 1) + b"\n" + text
        yield b" " * (length - len(text)) + text
        yield text + b"\n" * (length - len(text))
        yield b"\r\n" * ((length - len(text)) // 2) + text
        yield from (b"\n" * length, b" " * length, b"#" * length, b"a" * length, b"0" * length, b"\0" * length)
        yield text.rstrip(b"\n").replace(b"guard ", b"guard " + b"0" * (length - len(text) + 1))
    yield from (b"", b"\n", b"\r\n", b"\r", b" ", b"#", b"\0", b"\n\n", b"\n ")
    yield from (b"\xef\xbb\xbf" + text, text.rstrip(b"\n"), text.rstrip(b"\n") + b"\r", text + b"\r", text + b"\0", text + b" ")
    yield from (text.replace(b"\n", end) for end in (b"\r\n", b"\r", b"\r\r\n", b"\n\r", b"\n\n", b" \n", b"\0\n", b"\v", b" "))
    yield from (text.replace(b" ", gap) for gap in (b"\t", b"  ", b" \t ", b"\v", b"\f", b"\r", b"\xa0", b"_", b"\0", b"#"))


def other_word(random, rows):
    row = random.choice(rows)
    row[random.randrange(len(row))] = random.choice(NAMES + NO_NUMBERS + ["", "Guard", "x"])


def other_number(random, rows):
    row = random.choice(rows)
    places = [place for place, word in enumerate(row) if word.isdecimal()]
    if places:
        row[random.choice(places)] = str(random.choice(FAR + [63, 65, 257, 2001, 100_001, 1_000_001, 10_000_001, 100_000_001]))


def other_row(random, rows):
    """A row dropped, or said again in any place, perhaps with less behind its number."""
    row = random.choice(rows)
    if random.random() < 0.4 and len(rows) > 1:
        rows.remove(row)
    else:
        rows.insert(random.randint(0, len(rows)), row[: random.choice([len(row), len(row), 2, 1])])


def other_end(random, rows):
    """Words more or fewer at a row's end; of a route that is ports that are absent, twice or none, and too many."""
    row = random.choice([row for row in rows if "route" in row[:-1]] or rows if random.random() < 0.8 else rows)
    more = [row[-1:], ["64"], ["65"], ["7", "7"], list(map(str, range(1, 17))), list(map(str, range(40, 64))), ["x"]]
    row += random.choice(more)
    if random.random() < 0.3:
        del row[random.randint(1, len(row)) :]


def other_form(random, rows):
    rows.insert(random.choice([0, 0, 1, random.randint(0, len(rows))]), ["format", random.choice(["2", "2", "2", "1", "two"])])


def faulty(random, rows):
    """The rows of words with one to four faults at once."""
    rows = [list(row) for row in rows]
    for _ in range(random.choice([1, 2, 2, 3, 4])):
        random.choices([other_word, other_number, other_row, other_end, other_form], [2, 3, 6, 6, 1])[0](random, rows)
    return rows
