# SPDX-License-Identifier: MIT
"""What weights cost the low class: its 99th percentile by load, on 4 channels, as a picture by matplotlib."""
import matplotlib.pyplot as plot
from nvmearb import Priority, simulation as sim

LOADS, CLASSES = (0.5, 0.7, 0.8, 0.9, 0.95), (Priority.HIGH, Priority.MEDIUM, Priority.LOW)
for name, cdw11 in {"1:1:1": 0x00000003, "8:4:2": 0x07030103}.items():  # a burst of 8 commands
    tails = []
    for load in LOADS:
        queues = [sim.Queue(sim.poisson(round(60 * sim.US / load)), sim.exponential(80 * sim.US), priority=it) for it in CLASSES]
        done = sim.Simulation(sim.Model(queues, channels=4, cdw11=cdw11, commands=100_000, warm_up=10_000)).run()
        tails.append(sim.percentile((it.latency for it in done if it.queue == 3), 99) / sim.US)
    plot.plot(LOADS, tails, label=name)
plot.legend(title="p99 of the low class in us")
plot.savefig("weights.svg")
