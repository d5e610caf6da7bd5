"""The bad emission that ask prints, followed: whether it keeps the contracts, and where its run leaves the first frame unsent."""

import re

LINE = re.compile(
    r"  flow (\d+): (\d+) frames? in cycle (\d+), (\d+) at (\d+)"
    r"(?:, then (\d+) (?:at (\d+)|each (\d+) ns from (\d+) to (\d+)))?$"
)


class Burst:
    """A flow's line: its cycle and its instants."""

    def __init__(self, line):
        found = LINE.match(line)
        assert found, f"no line of a flow: {line!r}"
        number, frames, cycle, once, at, more, single, distance, first, last = (int(n or 0) for n in found.groups())
        self.number, self.cycle = number, cycle
        self.instants = [at] * once
        if found[7]:
            self.instants += [single] * more
        elif found[8]:
            for instant in range(first, last + 1, distance):
                self.instants += [instant] * more
            assert self.instants[-1] == last, "the last instant is not reached"
        assert len(self.instants) == frames, "the frames told are not those of the instants"


def keeps(flow, instants):
    """Whether nominal instants can be found that keep the contract: each as early as the jitter and those before it allow."""
    nominal = []
    for k, instant in enumerate(instants):
        earliest = [instant - flow.jitter]
        if k >= flow.count:
            earliest.append(nominal[k - flow.count] + flow.period)
        nominal.append(max(earliest + nominal[-1:]))
        if nominal[-1] > instant or (k and instant < instants[k - 1]):
            return False
    return instants[0] >= 0


def permitted(plan, duration, burst):
    """Whether the frames may stand in the one cycle that is told."""
    if any(plan.clock):
        return burst.instants[-1] - burst.instants[0] < plan.widened(duration)
    return all(instant // duration == burst.cycle for instant in burst.instants)


def first_unsent(plan, duration, bursts):
    """The run, cycle by cycle: what stands at each port is sent in the cycle after, up to the first cycle in which a port cannot."""
    queued, cycle = {}, 0
    while queued or any(burst.cycle >= cycle for burst in bursts):
        must = {}
        for (number, at), frames in queued.items():
            port = plan.flows[number].route[at]
            must[port] = must.get(port, 0) + frames * plan.ports[port].wire(plan.flows[number].length)
        for port in sorted(must):
            own = plan.ports[port]
            if 1000 * (must[port] + own.blocking()) > own.rate * plan.window(duration):
                return cycle, port, must[port]
        queued = {(n, at + 1): frames for (n, at), frames in queued.items() if at + 1 < len(plan.flows[n].route)}
        for burst in bursts:
            if burst.cycle == cycle:
                queued[burst.number, 0] = len(burst.instants)
        cycle += 1
    return None


def follow(plan, duration, lines):
    """Holds all that the lines of a bad emission say."""
    port = plan.failing(duration)[0]
    assert lines[0] == f"a bad emission, where port {port} fails:", "not of the lowest port that fails"
    bursts = [Burst(line) for line in lines[1:-1]]
    crossing = [number for number, flow in plan.flows.items() if port in flow.route]
    assert [burst.number for burst in bursts] == crossing, "not the flows that cross the port"
    assert min(burst.cycle for burst in bursts) == 0, "no burst in cycle 0"
    for burst in bursts:
        flow = plan.flows[burst.number]
        assert keeps(flow, burst.instants), f"flow {burst.number} breaks its contract"
        assert permitted(plan, duration, burst), f"flow {burst.number} is not in the cycle that is told"
        assert len(burst.instants) == plan.frames(flow, duration), f"flow {burst.number} brings more or fewer"
        assert flow.route.index(port) + burst.cycle == bursts[0].cycle + plan.flows[bursts[0].number].route.index(port)
    unsent = first_unsent(plan, duration, bursts)
    assert unsent, "the run leaves no frame unsent"
    cycle, at, bits = unsent
    can = plan.sendable(at, duration)
    assert lines[-1] == f"  in cycle {cycle} port {at} must send {bits} bits and can send {can}", "the first unsent frame is not there"
