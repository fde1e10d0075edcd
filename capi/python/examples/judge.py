# SPDX-License-Identifier: MIT
"""An arbiter of one's own, which is judged while it picks: round robin among three queues, two commands at a time."""
from nvmearb import Judge, Mechanism, Pick, Priority, Seen

waiting, last = {1: 5, 2: 3, 3: 4}, 0
judge = Judge(Mechanism.ROUND_ROBIN, cdw11=1)  # Arbitration Burst 1: at most 2 commands
while any(waiting.values()):
    seen = [Seen(qid, Priority.MEDIUM, count) for qid, count in waiting.items()]
    last = next(qid for qid in [*range(last + 1, 4), *range(1, last + 1)] if waiting[qid])
    pick = Pick(last, min(2, waiting[last]))
    judge.pick(seen, pick)  # raises Differs where another pick is the lawful one
    waiting[last] -= pick.n
print("1 passed, 0 failed")
