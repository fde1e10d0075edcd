# SPDX-License-Identifier: MIT
"""A second reading of what the specification asks of each pick, which looks back over all picks, and random picks that keep it.
An event is ("set", cdw11) or ("pick", queue, n, seen)."""
import random

LEVELS = ["high", "medium", "low"]
STRICT = {"admin": 0, "urgent": 1, "high": 2, "medium": 2, "low": 2}


def burst_of(cdw11):
    return None if cdw11 % 8 == 7 else 2 ** (cdw11 % 8)


def weights_of(cdw11):
    return {level: (cdw11 >> shift) % 256 + 1 for level, shift in zip(LEVELS, (24, 16, 8))}


def class_of(seen, queue):
    return next((item[1] for item in seen if item[0] == queue), None)


def used_in_round(first, past):
    """What was picked of each level since the round began, and the settings in force."""
    cdw11, used = first, dict.fromkeys(LEVELS, 0)
    for event in past:
        if event[0] == "set":
            cdw11, used = event[1], dict.fromkeys(LEVELS, 0)
            continue
        _, queue, n, seen = event
        level = class_of(seen, queue)
        if level in LEVELS:
            weights = weights_of(cdw11)
            if not any(item[2] > 0 and item[1] in LEVELS and used[item[1]] < weights[item[1]] for item in seen):
                used = dict.fromkeys(LEVELS, 0)
            used[level] += n
    return cdw11, used


def has_waited(mechanism, past, queue, level, other):
    """Whether the other queue was ready at the latest pick of this one and at each since, and got none of them."""
    for event in reversed(past):
        if event[0] == "set":
            continue
        _, picked, _, seen = event
        if mechanism == "weighted" and class_of(seen, picked) != level:
            continue
        ready = any(item[0] == other and item[2] > 0 and (mechanism == "round-robin" or item[1] == level) for item in seen)
        if not ready or picked == other:
            return False
        if picked == queue:
            return True
    return False


def broken(mechanism, first, past, event, begin=0):
    """The first rule that a pick breaks, in the order in which they are told, or None. Of the picks before `begin` the
    trace tells the state alone, so that nobody waits since one of them."""
    _, queue, n, seen = event
    waiting = next((item[2] for item in seen if item[0] == queue), 0)
    level = class_of(seen, queue)
    cdw11, _ = used_in_round(first, past)
    if not 1 <= n <= waiting:
        return "candidates"
    if burst_of(cdw11) is not None and n > burst_of(cdw11):
        return "burst"
    ready = [item for item in seen if item[2] > 0]
    if mechanism == "weighted" and any(STRICT[item[1]] < STRICT[level] for item in ready):
        return "priority"
    if mechanism == "weighted":
        weights, used = weights_of(cdw11), used_in_round(first, [*past, event])[1]
        if any(used[it] > weights[it] for it in LEVELS):
            return "credit"
    others = [item[0] for item in ready if mechanism == "round-robin" or item[1] == level]
    if any(has_waited(mechanism, past[begin:], queue, level, other) for other in others):
        return "turn"
    return None


def random_seen(it, classes):
    seen = [[0, "admin", it.randrange(3)]] if it.random() < 0.2 else []
    return seen + [[q, classes[q], it.choice([0, 1, 2, 5, 9])] for q in sorted(classes) if it.random() < 0.9]


def allowed_trace(seed):
    """A random trace that keeps the rules: each pick is one of those that keep them, taken at random."""
    it = random.Random(seed)
    mechanism, first, events = it.choice(["round-robin", "weighted"]), it.choice(
        [0, 1, 0x0301_0001, 0x0102_0007, 0x0200_0002]
    ), []
    classes = {q: it.choice(["urgent", *LEVELS]) for q in it.sample(range(1, 65), it.randrange(1, 6))}
    while len(events) < 20:
        if it.random() < 0.04:
            events.append(("set", it.choice([0, 1, 0x0201_0002, 0x0300_0007])))
            continue
        if it.random() < 0.04:
            classes[it.choice(list(classes))] = it.choice(["urgent", *LEVELS])
        seen = random_seen(it, classes)
        picks = [("pick", item[0], n, seen) for item in seen for n in range(1, min(item[2], 5) + 1)]
        allowed = [event for event in picks if broken(mechanism, first, events, event) is None]
        if allowed:
            events.append(it.choice(allowed))
    return mechanism, first, events


def changed_trace(seed):
    """A random trace with one of its picks changed."""
    mechanism, first, events = allowed_trace(seed)
    it = random.Random(seed + 1)
    at = it.choice([i for i, event in enumerate(events) if event[0] == "pick"])
    kind, queue, n, seen = events[at]
    choice = it.randrange(4)
    if choice == 0:
        n = it.randrange(0, 12)
    elif choice == 1:
        queue = it.choice([item[0] for item in seen])
    elif choice == 2:
        queue, n = it.randrange(0, 70), it.randrange(1, 3)
    else:
        seen = [[*item[:2], it.choice([0, 1, 3, 7])] for item in seen]
    events[at] = (kind, queue, n, seen)
    return mechanism, first, events
