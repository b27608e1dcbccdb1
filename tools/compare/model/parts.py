"""Things that build on one another, as parts with their steps, by the rules of docs/FORMATS.md."""

import functools


def parts_and_steps(bases):
    """The part of each thing, as a tuple in order, and its step; `bases` says what each builds on."""
    nodes = sorted(bases)
    reach = {name: set(bases[name]) for name in nodes}
    for through in nodes:
        for name in nodes:
            if through in reach[name]:
                reach[name] |= reach[through]
    part = {name: tuple(other for other in nodes if other == name or (
        other in reach[name] and name in reach[other])) for name in nodes}

    @functools.lru_cache(None)
    def step(members):
        below = {part[base] for name in members for base in bases[name]} - {members}
        return 1 + max((step(other) for other in below), default=0)
    return part, {name: step(part[name]) for name in nodes}
