"""What ask must print, worked out separately from the planner: documents 01 and 02 once more."""

from bisect import bisect_left


def read_hex(path):
    """The bytes of a plan in a file: hexadecimal, # starts a comment."""
    return bytes.fromhex("".join(line.split("#")[0] for line in path.read_text().splitlines()))


def ceil(n, by):
    return -(-n // by)


class Field:
    """A field's value, whose numbers are taken from the front."""

    def __init__(self, value):
        self.value = value

    def take(self, size):
        number, self.value = int.from_bytes(self.value[:size], "big"), self.value[size:]
        return number

    def rest(self):
        return [self.take(2) for _ in range(len(self.value) // 2)]


class Port:
    def __init__(self, rate, blocker, extra=0):
        self.rate, self.blocker, self.extra = rate, blocker, extra

    def wire(self, length):
        return 8 * (length + 20 + self.extra)

    def blocking(self):
        return self.wire(self.blocker) if self.blocker else 0


class Flow:
    def __init__(self, period, count, length, jitter, route):
        self.period, self.count, self.length, self.jitter, self.route = period, count, length, jitter, route


class Plan:
    """A plan that the rules accept, of either form."""

    def __init__(self, plan):
        self.ports, self.flows, self.clock, late = {}, {}, (0, 0, 0), []
        while plan:
            tag, length = plan[0], int.from_bytes(plan[1:3], "big")
            field, plan = Field(plan[3 : 3 + length]), plan[3 + length :]
            take = field.take
            if tag in (0x01, 0x11):
                self.guard, self.top = take(4), take(4)
            if tag in (0x06, 0x11):
                self.clock = take(4), take(4), take(4)
            if tag in (0x02, 0x12):
                number = take(2)
                self.ports[number] = Port(take(4), take(2), take(2) if tag == 0x12 else 0)
            if tag in (0x03, 0x13):
                number = take(2)
                self.flows[number] = Flow(take(4), take(2), take(2), take(4) if tag == 0x13 else 0, field.rest())
            if tag == 0x04:
                late.append((self.ports, take(2), "extra", take(2)))
            if tag == 0x05:
                late.append((self.flows, take(2), "jitter", take(4)))
        for table, number, name, value in late:
            setattr(table[number], name, value)
        self.flows = dict(sorted(self.flows.items()))
        self.crossed = sorted({port for flow in self.flows.values() for port in flow.route})

    def widened(self, duration):
        drift, timing_jitter, sync_error = self.clock
        return min(duration + ceil(duration * drift, 1_000_000) + timing_jitter, duration + 2 * sync_error)

    def window(self, duration):
        return max(0, duration - 2 * self.guard)

    def frames(self, flow, duration):
        return flow.count * ceil(self.widened(duration) + flow.jitter, flow.period)

    def shares(self, port, duration):
        """The flows that cross a port: what each brings in bits, its number, its frames and the bits of one."""
        crossing = [(number, flow) for number, flow in self.flows.items() if port in flow.route]
        found = []
        for number, flow in crossing:
            frames, wire = self.frames(flow, duration), self.ports[port].wire(flow.length)
            found.append((frames * wire, number, frames, wire))
        return found

    def demand(self, port, duration):
        return sum(share[0] for share in self.shares(port, duration))

    def spare(self, port, duration):
        own = self.ports[port]
        return own.rate * self.window(duration) - 1000 * (self.demand(port, duration) + own.blocking())

    def sendable(self, port, duration):
        own = self.ports[port]
        return max(0, own.rate * self.window(duration) // 1000 - own.blocking())

    def need(self, port, duration):
        own = self.ports[port]
        return 2 * self.guard + ceil(1000 * (self.demand(port, duration) + own.blocking()), own.rate)

    def failing(self, duration):
        return [port for port in self.crossed if self.spare(port, duration) < 0]

    def steps(self):
        """The durations from 1 to top cut where a flow brings more frames: pairs of the first and the last of each piece."""
        first = 1
        while first <= self.top:
            ends = []
            for flow in self.flows.values():
                now = self.frames(flow, first)
                ends.append(bisect_left(range(self.top + 1), True, lo=first, key=lambda d: self.frames(flow, d) > now))
            last = min(ends) - 1
            yield first, min(last, self.top)
            first = last + 1

    def spans(self):
        """The runs of admissible durations: in a piece, those from the largest need on."""
        found = []
        for first, last in self.steps():
            low = max([first] + [self.need(port, first) for port in self.crossed])
            if low > last:
                continue
            if found and found[-1][1] + 1 == low:
                found[-1] = found[-1][0], last
            else:
                found.append((low, last))
        return found


def good(plan, duration, spans):
    spare, port = min((plan.spare(port, duration), port) for port in plan.crossed)
    first, last = next(span for span in spans if span[0] <= duration <= span[1])
    yield f"smallest spare: {spare // 1000} bits at port {port}"
    yield f"admissible from {first} to {last} ns"
    if last == plan.top:
        yield "margin-safe"
    elif spans[-1][1] == plan.top:
        yield f"not margin-safe; margin-safe from {spans[-1][0]} ns"
    else:
        yield "not margin-safe; no duration is"


def frames(n):
    return "1 frame" if n == 1 else f"{n} frames"


def bad(plan, duration, spans):
    for port in plan.failing(duration):
        short = plan.need(port, duration) - duration
        must, can = plan.demand(port, duration), plan.sendable(port, duration)
        yield f"port {port} must send {must} bits in a cycle and can send {can}: {short} ns short"
        for _, number, n, wire in sorted(plan.shares(port, duration), key=lambda share: (-share[0], share[1])):
            yield f"  flow {number} brings {frames(n)} of {wire} bits"
    below = max([last for _, last in spans if last < duration], default="none")
    above = min([first for first, _ in spans if first > duration], default="none")
    yield f"nearest admissible durations: {below} below, {above} above"


def spoken(plan, duration, spans):
    """The lines up to the bad emission."""
    if plan.failing(duration):
        return [f"{duration} ns is not admissible", *bad(plan, duration, spans)]
    return [f"{duration} ns is admissible", *good(plan, duration, spans)]
