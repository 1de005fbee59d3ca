"""The parents of closed spans, and which of these are outer, by docs/report.md alone."""
from math import inf


def rank(span):
    """What puts closed spans (start, end, position, ..) in ascending rank."""
    start, end, position, *_ = span
    return start, -end, position


def holds(other, span):
    """Whether a closed span of the same thread holds this one."""
    return other[0] <= span[0] and span[1] <= other[1] and rank(other) < rank(span)


def parents_of(spans):
    """The parent of each of the closed spans of a thread, or none: of those that hold it, the one that ranks above all others. So of the
    spans that it ranks above, from the highest down, it is the first that holds it."""
    ranked, parents = sorted(spans, key=rank), {}
    for place, span in enumerate(ranked):
        parents[span[2]] = next((other for other in reversed(ranked[:place]) if holds(other, span)), None)
    return [parents[span[2]] for span in spans]


def are_outer(spans):
    """Whether each of the closed spans of a thread is outer: no other one with its name holds it. Those with its name that it ranks above
    start no later, so one of them holds it if it ends no earlier."""
    latest, outer = {}, {}
    for _, end, position, name, *_ in sorted(spans, key=rank):
        outer[position] = latest.get(name, -inf) < end
        latest[name] = max(end, latest.get(name, -inf))
    return [outer[span[2]] for span in spans]
