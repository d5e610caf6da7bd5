"""The spans of a plan, computed separately from the planner: documents 01 and 02 once more, by walking the points where a demand rises."""

import heapq


def read_hex(path):
    """The bytes of a plan in a file: hexadecimal, # starts a comment."""
    return bytes.fromhex("".join(line.split("#")[0] for line in path.read_text().splitlines()))


def fields(plan):
    """The fields of a plan that the rules accept: tag and value."""
    at = 0
    while at < len(plan):
        length = int.from_bytes(plan[at + 1 : at + 3], "big")
        yield plan[at], plan[at + 3 : at + 3 + length]
        at += 3 + length


def numbers(value, *sizes):
    """The numbers at the start of a value, high byte first."""
    found, at = [], 0
    for size in sizes:
        found.append(int.from_bytes(value[at : at + size], "big"))
        at += size
    return found


class Plan:
    def __init__(self, plan):
        self.ports, self.flows, self.clocks, extras, jitters = {}, {}, (0, 0, 0), {}, {}
        for tag, value in fields(plan):
            if tag == 1:
                self.guard, self.top = numbers(value, 4, 4)
            elif tag == 2:
                number, rate, blocker = numbers(value, 2, 4, 2)
                self.ports[number] = [rate, blocker, 0]
            elif tag == 3:
                number, period, count, length = numbers(value, 2, 4, 2, 2)
                route = numbers(value[10:], *[2] * ((len(value) - 10) // 2))
                self.flows[number] = [period, count, length, 0, route]
            elif tag == 4:
                number, extra = numbers(value, 2, 2)
                extras[number] = extra
            elif tag == 5:
                number, jitter = numbers(value, 2, 4)
                jitters[number] = jitter
            else:
                self.clocks = tuple(numbers(value, 4, 4, 4))
        for number, extra in extras.items():
            self.ports[number][2] = extra
        for number, jitter in jitters.items():
            self.flows[number][3] = jitter

    def widened(self, duration):
        drift, timing_jitter, sync_error = self.clocks
        return duration + min(-(-duration * drift // 1_000_000) + timing_jitter, 2 * sync_error)

    def periods(self, flow, duration):
        """How many periods of a flow have begun at a duration."""
        period, _, _, jitter, _ = flow
        return -(-(self.widened(duration) + jitter) // period)

    def rise(self, flow, periods):
        """The first duration at which more than so many periods have begun."""
        low, high = 1, max(1, periods * flow[0] + 1)
        while low < high:
            middle = (low + high) // 2
            if self.periods(flow, middle) > periods:
                high = middle
            else:
                low = middle + 1
        return low

    def need(self, port, bits):
        rate, blocker, extra = self.ports[port]
        blocking = 8 * (blocker + 20 + extra) if blocker else 0
        return 2 * self.guard - (-1000 * (bits + blocking) // rate)

    def admissible(self, duration):
        bits = {}
        for flow in self.flows.values():
            for port in flow[4]:
                wire = 8 * (flow[2] + 20 + self.ports[port][2])
                bits[port] = bits.get(port, 0) + self.periods(flow, duration) * flow[1] * wire
        return all(self.need(port, demand) <= duration for port, demand in bits.items())

    def spans(self):
        """Rising pairs of the first and the last duration."""
        bits, needs, found = {}, {}, []
        rises = [(1, number, 0) for number in self.flows]
        heapq.heapify(rises)
        while rises:
            start = rises[0][0]
            while rises and rises[0][0] == start:
                _, number, before = heapq.heappop(rises)
                flow = self.flows[number]
                begun = self.periods(flow, start)
                for port in flow[4]:
                    wire = 8 * (flow[2] + 20 + self.ports[port][2])
                    bits[port] = bits.get(port, 0) + (begun - before) * flow[1] * wire
                    needs[port] = self.need(port, bits[port])
                later = self.rise(flow, begun)
                if later <= self.top:
                    heapq.heappush(rises, (later, number, begun))
            end = rises[0][0] - 1 if rises else self.top
            first = max(start, max(needs.values()))
            if first > end:
                continue
            if found and found[-1][1] + 1 == first:
                found[-1] = (found[-1][0], end)
            else:
                found.append((first, end))
        return found
