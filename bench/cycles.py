#!/usr/bin/env python3
"""How many rules a refusal with 5 looks at, at worst: a count of the search of crates/analysis/src/cycles.rt, step for step.

Event 1 has as many rules from the root as the limits leave, a chain leads on from it through all other events but the last, and the last has a rule to
itself. So the search goes back through nearly every rule from nearly every event before it comes to the one that lies on a cycle."""


def looked_at(events, rules):
    """The lowest event on a cycle, and the rules looked at until it is found."""
    into = [[] for _ in range(events)]
    for source, target in rules:
        into[target].append(source)
    count = 0
    for v in range(events):
        seen, found, at, here = [False] * events, [], 0, v
        while True:
            count += len(into[here])
            for source in into[here]:
                if not seen[source]:
                    seen[source] = True
                    found.append(source)
            if at == len(found):
                break
            here, at = found[at], at + 1
        if seen[v]:
            return v, count
    return events, count


def worst(events, rules):
    chain = [(v, v + 1) for v in range(1, events - 2)]
    first = [(0, 1)] * (rules - len(chain) - 1)
    return first + chain + [(events - 1, events - 1)]


for events, rules in [(1024, 4096), (64, 1024)]:
    lowest, count = looked_at(events, worst(events, rules))
    print(f"{events} events, {rules} rules: event {lowest}, {count:,} rules looked at; no more than {events * rules + rules:,} can be")
