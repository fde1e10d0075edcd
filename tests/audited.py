# SPDX-License-Identifier: MIT
"""A second reading of the definitions of `nvme_audit`, and of the picks of a log, which looks back over the whole log at each event."""
import collections
import functools
import struct

from specified import broken

CREATES, DELETES = {1: "sq", 5: "cq"}, {0: "sq", 4: "cq"}
TURNS, SET_FEATURES, NUMBER_OF_QUEUES = CREATES | DELETES, 9, 7
# The command specific statuses of an opcode, below those of the vendor.
SPECIFIC, VENDOR = {0: {1}, 1: {0, 1, 2}, 4: {1, 0x0C}, 5: {1, 2, 8}, 8: {3}}, 0xC0
ABORT = 8
# The rules of rings and of the order of events. The others are of a status alone.
ORDER = set("fetch-closed fetch-beyond-tail fetch-slot post-closed slot phase cq-full cq-wrong life sqhd".split())
# Those of arbitration, each of which asks something of each pick that is judged.
PICK_RULES = [f"pick-{rule}" for rule in ("candidates", "burst", "priority", "credit", "turn")]
SUCCESS, INVALID_FIELD, ABORTED, ABORTED_BY_DELETION, BAD_CQ, BAD_IDENTIFIER, BAD_DELETION = 0, 2, 7, 8, 0x100, 0x101, 0x10C


def completion_of(line):
    """SQID, CID, SQHD, the phase tag, SCT and SC as 100h * SCT + SC, and Dword 0, from the entry or from fields."""
    if "cqe" in line:
        dw0, head, sq, cid, word = struct.unpack("<I4x4H", bytes.fromhex(line["cqe"]))
        return sq, cid, head, word & 1, word >> 1 & 0x7FF, dw0
    return line["sq"], line["cid"], line.get("sqhd"), line.get("phase"), line["status"] & 0x7FF, line.get("dw0")


def command_of(line):
    """CID, opcode and Command Dwords 10 and 11."""
    if "sqe" in line:
        entry = bytes.fromhex(line["sqe"])
        return (struct.unpack_from("<H", entry, 2)[0], entry[0], *struct.unpack_from("<II", entry, 40))
    return line["cid"], line["op"], line.get("cdw10", 0), line.get("cdw11", 0)


def of_queue(command):
    """The queue that a command creates or deletes, if any. A command is its opcode and Command Dwords 10 and 11."""
    return (TURNS[command[0]], command[1] & 0xFFFF) if command[0] in TURNS else None


class Log:
    """A log, and what its first n events say. An event is its kind, its queue, its slot and the rest."""

    def __init__(self, lines):
        head, self.events, self.lines, self.picks = lines[0], [], [], []
        self.mechanism, self.cdw11 = head.get("mechanism"), head.get("cdw11")
        self.tells, self.sizes = set(head["tells"]), {"sq": head["asq"], "cq": head["acq"]}
        told = "post" if "post" in self.tells else "complete"
        for number, line in enumerate(lines[1:], 2):
            kind = next(iter(line))
            if kind in ("tail", "head"):
                self.add(number, kind, line[kind], line["slot"], None)
            elif kind == "fetch":
                self.add(number, kind, line[kind], line.get("slot"), command_of(line))
            elif kind == told:
                self.add(number, "post", line[kind], line.get("slot"), completion_of(line))
            elif kind == "set":
                self.picks.append((number, ("set", line["set"])))
            elif kind == "pick":
                self.picks.append((number, ("pick", line["pick"], line["n"], line["seen"])))

    def add(self, number, *event):
        self.lines.append(number)
        self.events.append(event)

    @functools.cache
    def outstanding(self, n, queue, cid):
        """The outstanding command of a name after n events: its index, or None."""
        for i in reversed(range(n)):
            kind, of, _, rest = self.events[i]
            if kind == "fetch" and (of, rest[0]) == (queue, cid):
                return i
            if kind == "post" and (self.turned(i) == ("sq", queue) or rest[:2] == (queue, cid)):
                return None
        return None

    @functools.cache
    def ended(self, i):
        """The admin command that succeeds by the completion with index i, as its opcode and two dwords, or None."""
        sq, cid, _, _, status, _ = self.events[i][3]
        fetched = self.outstanding(i, 0, cid) if sq == 0 and status == SUCCESS else None
        return None if fetched is None else self.events[fetched][3][1:]

    def turned(self, i):
        """Which queue it opens or closes, if any."""
        ended = self.ended(i)
        return ended and of_queue(ended)

    def since(self, n, kind, queue):
        """The index of the first event after the queue was opened or closed last; its slots, 0 where it is closed; its CQID."""
        for i in reversed(range(n)):
            if self.events[i][0] == "post" and self.turned(i) == (kind, queue):
                opcode, low, high = self.ended(i)
                return (i + 1, (low >> 16) + 1, high >> 16) if opcode in CREATES else (i + 1, 0, None)
        return (0, self.sizes[kind], 0) if queue == 0 else (0, 0, None)

    def named(self, n, kind, queue):
        """The indices of the events of a kind that name a queue, since it was opened."""
        side = "sq" if kind in ("tail", "fetch") else "cq"
        return [i for i in range(self.since(n, side, queue)[0], n) if self.events[i][:2] == (kind, queue)]

    def told(self, n, kind, queue):
        """How far the doorbell of a queue came: each write names the next number that stands for its slot."""
        slots, far = self.since(n, "sq" if kind == "tail" else "cq", queue)[1], 0
        for i in self.named(n, kind, queue):
            far += (self.events[i][2] - far) % slots
        return far

    def was_deleted(self, n, queue):
        return any(
            e[0] == "post" and self.turned(i) == ("sq", queue) and self.ended(i)[0] in DELETES for i, e in enumerate(
                self.events[:n]
            )
        )

    @functools.cache
    def breach(self, n):
        """The rule that the host breaks at event n, whatever it broke before."""
        kind, queue, slot, rest = self.events[n]
        if kind == "fetch" and self.outstanding(n, queue, rest[0]) is not None:
            return "cid-reused"
        if kind not in ("tail", "head"):
            return None
        slots = self.since(n, "sq" if kind == "tail" else "cq", queue)[1]
        if slot >= slots:
            return f"{kind}-range"
        far = self.told(n + 1, kind, queue)
        if kind == "tail" and far - len(self.named(n, "fetch", queue)) >= slots:
            return "tail-full"
        if kind == "head" and not self.is_early(n, queue) and far > len(self.named(n, "post", queue)):
            return "head-range"
        return None

    def is_outstanding(self, n, side, queue):
        """Whether a Create or a Delete of a queue is outstanding at event n."""
        return self.during(n - 1, n, lambda it: of_queue(it) == (side, queue))

    def begun(self, n, side, queue):
        """The index after the last fetch of a Create of a queue that was closed, and had no other such command outstanding."""
        for i in reversed(range(n)):
            kind, of, _, rest = self.events[i]
            if (kind, of) == ("fetch", 0) and CREATES.get(rest[1]) == side and of_queue(rest[1:])[1] == queue:
                if not self.is_open(i, side, queue) and not self.is_outstanding(i, side, queue):
                    return i + 1
        return 0

    @functools.cache
    def is_excused(self, n, side, queue):
        """Whether the host broke a rule of a queue since that was begun."""
        kinds = ("tail", "fetch") if side == "sq" else ("head",)
        return any(
            self.events[i][0] in kinds and self.events[i][1] == queue and self.breach(i) for i in range(
                self.begun(n, side, queue), n
            )
        )

    def is_lost(self, n):
        """Whether an identifier of the admin queue was used again before event n, while its command was outstanding."""
        events = enumerate(self.events[:n])
        return any(e[:2] == ("fetch", 0) and self.outstanding(i, 0, e[3][0]) is not None for i, e in events)

    @functools.cache
    def is_early(self, n, queue):
        """Whether a completion came into a completion queue that wasn't open and of which a Create or a Delete was outstanding."""
        for i in reversed(range(n)):
            if self.events[i][0] == "post" and self.turned(i) == ("cq", queue) and self.ended(i)[0] in DELETES:
                return False
            if self.events[i][:2] == ("post", queue) and not self.is_open(i, "cq", queue) and self.is_outstanding(i, "cq", queue):
                return True
        return False

    def verdict(self, n):
        """Who breaks which rule at event n."""
        kind, queue, slot, rest = self.events[n]
        side = "sq" if kind in ("tail", "fetch") else "cq"
        if self.is_lost(n) or self.is_excused(n, side, queue):
            return None
        if kind in ("tail", "head"):
            rule = self.breach(n)
            return rule and ("host", rule)
        rule = self.of_fetch(n, queue, slot) if kind == "fetch" else self.of_slot(n, queue, slot, rest) or self.of_name(
            n, queue, rest
        ) or self.of_status(n, rest)
        if rule:
            return "controller", rule
        return ("host", self.breach(n)) if self.breach(n) else None

    def of_fetch(self, n, queue, slot):
        slots, fetched = self.since(n, "sq", queue)[1], len(self.named(n, "fetch", queue))
        if not slots:
            return "fetch-closed"
        if "tail" in self.tells and fetched >= self.told(n, "tail", queue):
            return "fetch-beyond-tail"
        return None if slot in (None, fetched % slots) else "fetch-slot"

    def of_slot(self, n, queue, slot, rest):
        slots, posted = self.since(n, "cq", queue)[1], len(self.named(n, "post", queue))
        if not slots:
            return None if "post" not in self.tells or self.is_outstanding(n, "cq", queue) else "post-closed"
        if self.is_early(n, queue):
            return None
        if slot not in (None, posted % slots):
            return "slot"
        if rest[3] not in (None, 1 - posted // slots % 2):
            return "phase"
        full = "head" in self.tells and posted + 1 - self.told(n, "head", queue) >= slots
        return "cq-full" if full else None

    def of_name(self, n, cq, rest):
        sq, cid, head = rest[:3]
        if not self.is_by_name(n, sq):
            return None
        _, slots, wanted = self.since(n, "sq", sq)
        if not slots:
            return "post-closed" if self.was_deleted(n, sq) else "life"
        own = self.outstanding(n, sq, cid)
        if wanted != cq or own is None:
            return "cq-wrong" if wanted != cq else "life"
        before = [i for i in self.named(n, "fetch", sq) if i < own]
        heads = [k % slots for k in range(len(before) + 1, len(self.named(n, "fetch", sq)) + 1)]
        return None if head is None or head in heads else "sqhd"

    @functools.cached_property
    def commands(self):
        """The admin commands: when each was fetched, when it was answered (or never), and the command."""
        found = []
        for i, (kind, queue, _, rest) in enumerate(self.events):
            if (kind, queue) == ("fetch", 0):
                answers = (
                    k for k in range(i, len(self.events)) if self.events[k][0] == "post" and self.events[k][3][:2] == (0, rest[0])
                )
                found.append((i, next(answers, len(self.events)), rest[1:]))
        return found

    def during(self, since, n, is_one):
        """Whether such an admin command was outstanding at some moment from event `since` to event n."""
        return any(fetched < n and answered > since and is_one(it) for fetched, answered, it in self.commands)

    def have_met(self, n):
        """Whether two commands on one queue were outstanding at once, before event n."""
        pairs = ((one, other) for one in self.commands for other in self.commands if one[0] < other[0] < min(one[1], n))
        return any(of_queue(one[2]) == of_queue(other[2]) is not None for one, other in pairs)

    def numbers(self, n):
        """What the first Set Features of Number of Queues was answered before event n."""
        good = [i for i in range(n) if self.events[i][0] == "post" and self.ended(i) and self.events[i][3][5] is not None]
        set_by = ((self.ended(i), self.events[i][3][5]) for i in good)
        return next((dw0 for it, dw0 in set_by if it[0] == SET_FEATURES and it[1] & 0xFF == NUMBER_OF_QUEUES), None)

    def has_stirred(self, since, n, queue):
        """Whether between two events a command of a submission queue was aborted, or the queue was opened or closed."""
        posts = ((i, self.events[i][3]) for i in range(since, n) if self.events[i][0] == "post")
        return any((rest[0], rest[4]) == (queue, ABORTED) or self.turned(i) == ("sq", queue) for i, rest in posts)

    def says_aborted(self, n, fetched, command):
        """Whether completion n of an Abort says that a command was aborted, where none of its queue was since the fetch."""
        status, dw0 = self.events[n][3][4:]
        return status == SUCCESS and dw0 is not None and dw0 % 2 == 0 and not self.has_stirred(fetched, n, command[1] & 0xFFFF)

    def aborts(self, n):
        """The Aborts that were fetched before event n."""
        return [it for it in self.commands if it[0] < n and it[2][0] == ABORT]

    def is_owed(self, n, queue, cid, own):
        """Whether an Abort says that the command with this name, fetched by event `own`, was aborted."""
        named = (it for it in self.aborts(n) if it[2][1] == cid << 16 | queue)
        return any(own < it[1] < n and self.says_aborted(it[1], it[0], it[2]) for it in named)

    def is_by_name(self, n, sq):
        """Whether completions of a submission queue are judged by their names."""
        return not self.is_excused(n, "sq", sq) and ("post" in self.tells or not self.was_deleted(n, sq))

    def target(self, n, queue, own):
        """The name of the command that completion n of an Abort, fetched by event `own`, says it aborted, where that is judged."""
        command = self.events[own][3][1:]
        if queue != 0 or command[0] != ABORT or not self.says_aborted(n, own, command):
            return None
        sq, cid = command[1] & 0xFFFF, command[1] >> 16
        return (sq, cid) if self.is_by_name(n, sq) else None

    def of_abort(self, n, queue, cid, status):
        """The rule on Aborts that the status of completion n breaks, of the command with this name."""
        own = self.outstanding(n, queue, cid)
        if own is None:
            return None
        mine = [it for it in self.aborts(n) if it[2][1] == cid << 16 | queue and it[0] >= own]
        if status == ABORTED and not mine and not any(fetched < own < answered for fetched, answered, _ in self.aborts(n)):
            return "abort-unasked"
        if self.is_owed(n, queue, cid, own) and status != ABORTED:
            return "abort-untrue"
        target = self.target(n, queue, own)
        return "abort-untrue" if target and self.outstanding(n, *target) is None else None

    def is_open(self, n, side, queue):
        return self.since(n, side, queue)[1] > 0

    def is_attached(self, n, cq):
        """Whether an I/O submission queue is on a completion queue."""
        made = {it[1] & 0xFFFF for _, _, it in self.commands if it[0] in CREATES}
        return any(self.is_open(n, "sq", sq) and self.since(n, "sq", sq)[2] == cq for sq in made)

    def is_within(self, n, side, queue):
        """Whether an identifier is within the numbers that were told."""
        told = self.numbers(n)
        return told is not None and 1 <= queue <= (told & 0xFFFF if side == "sq" else told >> 16) + 1

    def of_status(self, n, rest):
        """The rule that the status of completion n breaks."""
        sq, cid, _, _, status, dw0 = rest
        if not self.is_by_name(n, sq):
            return None
        if status == ABORTED_BY_DELETION and not self.during(-1, n, lambda it: (it[0], it[1] & 0xFFFF) == (0, sq)):
            return "sqdel-unasked"
        broken = self.of_abort(n, sq, cid, status)
        if broken:
            return broken
        own = self.outstanding(n, 0, cid) if sq == 0 else None
        if own is None:
            return None
        command = self.events[own][3][1:]
        if status >> 8 == 1 and status & 0xFF < VENDOR and status & 0xFF not in SPECIFIC.get(command[0], {status & 0xFF}):
            return "status-foreign"
        if command[0] in TURNS and not self.have_met(n) and self.is_untrue(n, own, command, status):
            return "status-create" if command[0] in CREATES else "status-delete"
        return "features" if self.is_impossible(n, own, command, status, dw0) else None

    def is_untrue(self, n, fetched, command, status):
        """Whether the status of a Create or a Delete is true of no moment from its fetch to completion n."""
        (side, queue), low, high = of_queue(command), command[1] >> 16, command[2] >> 16
        is_open = self.is_open(n, side, queue)
        if command[0] in DELETES:
            if status == SUCCESS and (queue == 0 or not is_open) or status == BAD_IDENTIFIER and queue and is_open:
                return True
            if side == "sq" or self.during(fetched, n, lambda it: TURNS.get(it[0]) == "sq"):
                return False
            return status == (SUCCESS if self.is_attached(n, queue) else BAD_DELETION) and queue != 0
        if status == SUCCESS and (queue == 0 or is_open or low == 0):
            return True
        if status == BAD_IDENTIFIER:
            return not is_open and self.is_within(n, side, queue) and (side == "cq" or self.is_within(n, "cq", high))
        if side == "cq" or self.during(fetched, n, lambda it: of_queue(it) == ("cq", high)):
            return False
        return status == BAD_CQ and high != 0 if self.is_open(n, "cq", high) else status == SUCCESS

    def is_impossible(self, n, fetched, command, status, dw0):
        """Whether a Set Features of Number of Queues can't succeed with this Dword 0."""
        if status != SUCCESS or command[0] != SET_FEATURES or command[1] & 0xFF != NUMBER_OF_QUEUES:
            return False
        if any(self.events[i][0] == "post" and (self.ended(i) or [None])[0] in CREATES for i in range(fetched)):
            return True
        told = self.numbers(n)
        return dw0 is not None and (0xFFFF in (dw0 & 0xFFFF, dw0 >> 16) if told is None else dw0 != told)

    def asks(self, n):
        """The rules that ask something of event n, each by itself."""
        kind, queue, slot, rest = self.events[n]
        side = "sq" if kind in ("tail", "fetch") else "cq"
        if kind in ("tail", "head") or self.is_lost(n) or self.is_excused(n, side, queue):
            return set()
        if kind == "fetch":
            told = {"fetch-beyond-tail": "tail" in self.tells, "fetch-slot": slot is not None}
            return {"fetch-closed"} | {rule for rule in told if told[rule] and self.is_open(n, side, queue)}
        told = {"slot": slot is not None, "phase": rest[3] is not None, "cq-full": "head" in self.tells}
        is_counted = self.is_open(n, side, queue) and not self.is_early(n, queue)
        place = {"post-closed"} | {rule for rule in told if told[rule] and is_counted}
        return place | self.asks_of_name(n, rest) | self.asks_of_status(n, rest) if self.is_by_name(n, rest[0]) else place

    def asks_of_name(self, n, rest):
        sq, cid, head = rest[:3]
        if not self.is_open(n, "sq", sq):
            return set() if self.was_deleted(n, sq) else {"life"}
        has_head = head is not None and self.outstanding(n, sq, cid) is not None
        return {"cq-wrong", "life", "sqhd"} if has_head else {"cq-wrong", "life"}

    def asks_of_status(self, n, rest):
        sq, cid, _, _, status, _ = rest
        own = self.outstanding(n, sq, cid)
        found = {"sqdel-unasked"} if status == ABORTED_BY_DELETION else set()
        if own is None:
            return found
        if status == ABORTED:
            found.add("abort-unasked")
        if self.is_owed(n, sq, cid, own) or self.target(n, sq, own):
            found.add("abort-untrue")
        return found | self.asks_of_admin(n, own, self.events[own][3][1:], status) if sq == 0 else found

    def asks_of_admin(self, n, own, command, status):
        found = set()
        if command[0] in SPECIFIC and status >> 8 == 1 and status & 0xFF < VENDOR:
            found.add("status-foreign")
        if command[0] in TURNS and not self.have_met(n) and self.may_be_untrue(n, own, command, status):
            found.add("status-create" if command[0] in CREATES else "status-delete")
        if status == SUCCESS and command[0] == SET_FEATURES and command[1] & 0xFF == NUMBER_OF_QUEUES:
            found.add("features")
        return found

    def may_be_untrue(self, n, own, command, status):
        """Whether something is asked of this status of a Create or a Delete, which is fetched by event `own`."""
        (side, queue), high = of_queue(command), command[2] >> 16
        if status == BAD_IDENTIFIER and command[0] in CREATES:
            return self.is_within(n, side, queue) and (side == "cq" or self.is_within(n, "cq", high))
        if status == BAD_CQ and command[0] == 1:
            return high != 0 and not self.during(own, n, lambda it: of_queue(it) == ("cq", high))
        if status == BAD_DELETION and command[0] == 4:
            return queue != 0 and not self.during(own, n, lambda it: TURNS.get(it[0]) == "sq")
        return status == SUCCESS or status == BAD_IDENTIFIER and queue != 0

    def names(self, n):
        """The queues that event n names."""
        kind, queue, _, rest = self.events[n]
        if kind == "post":
            return {("cq", queue), ("sq", rest[0])}
        return {("cq" if kind == "head" else "sq", queue)}

    def answers(self, n):
        """The queues that the admin command names which event n answers."""
        kind, _, _, rest = self.events[n]
        own = self.outstanding(n, 0, rest[1]) if kind == "post" and rest[0] == 0 else None
        if own is None:
            return set()
        command = self.events[own][3][1:]
        found = {("sq", command[1] & 0xFFFF)} if command[0] == ABORT else {of_queue(command)} - {None}
        return found | {("cq", command[2] >> 16)} if command[0] == 1 else found

    def lets_go(self, n):
        """Whether a breach is told of event n after which nobody knows where its queues stand."""
        who, rule = self.said(n) or (None, None)
        return who == "controller" and rule in ORDER

    def is_let_go(self, n, side, queue):
        """Whether such a breach let a queue go before event n, since that was opened or closed."""
        since = self.since(n, side, queue)[0]
        return any((side, queue) in self.names(i) and self.lets_go(i) for i in range(since, n))

    @functools.cache
    def is_passed_over(self, n):
        """Whether nothing is said of event n: a queue that it names or answers for was let go, or all were by queue 0."""
        if any({("sq", 0), ("cq", 0)} & self.names(i) and self.lets_go(i) for i in range(n)):
            return True
        return any(self.is_let_go(n, *queue) for queue in self.names(n) | self.answers(n))

    @functools.cache
    def said(self, n):
        """Who breaks which rule at event n, where it isn't passed over."""
        return None if self.is_passed_over(n) else self.verdict(n)

    def judged_picks(self):
        """The picks that are judged: the number of the line of each, and the rule that it breaks, or None. After a breach
        none is until the settings change."""
        found, first, past, is_let_go = [], self.cdw11, [], False
        for number, event in self.picks:
            if event[0] == "set" and is_let_go:
                first, past, is_let_go = event[1], [], False
            elif event[0] == "set":
                past.append(event)
            elif not is_let_go:
                rule = broken(self.mechanism, first, past, event)
                found.append((number, rule and f"pick-{rule}"))
                past.append(event)
                is_let_go = rule is not None
        return found

    def end(self):
        """The line at which the controller breaks a rule first, if any."""
        return next((line for line, who, _ in self.breaches() if who == "controller"), float("inf"))

    def coverage(self, whole=False):
        """Of each rule, how many events it asks something of, up to the one at which the controller breaks a rule first."""
        counts, end = collections.Counter(), self.end()
        for n, line in enumerate(self.lines):
            if (not self.is_passed_over(n)) if whole else line <= end:
                counts.update(self.asks(n))
        times = sum(whole or line <= end for line, _ in self.judged_picks())
        return dict(counts) | (dict.fromkeys(PICK_RULES, times) if times else {})

    def breaches(self, whole=False):
        """The lines of what is broken, up to the controller's first, or in the whole log."""
        found = [(line, "controller", rule) for line, rule in self.judged_picks() if rule]
        for n, line in enumerate(self.lines):
            broken_here = self.said(n) if whole else self.verdict(n)
            if broken_here:
                found.append((line, *broken_here))
            if not whole and broken_here and broken_here[0] == "controller":
                break
        found.sort()
        first = next((at for at, (_, who, _) in enumerate(found) if who == "controller"), len(found))
        return found if whole else found[: first + 1]
