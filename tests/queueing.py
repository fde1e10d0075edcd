# SPDX-License-Identifier: MIT
"""Simulations of which queueing theory tells what comes of them. `tests/theory` runs them, and docs/THEORY.md is made from this.

A row of the tables is a simulation file that is run with the seeds 1 to 10, each of 300,000 commands, of which the first 30,000
don't count. Measured is the mean of the ten runs with its standard error; the formula has to be within three of these. Times are
in microseconds, and a wait is a latency less its service. Loads are parts of what the device can do; three are those of urgent,
high and low. Services take 100 us, or that as a mean, where nothing else is said.
"""
import heapq
import json
import math
import os
from collections import Counter, namedtuple
from functools import partial
from itertools import product

SEEDS = range(1, 11)
COMMANDS, WARM_UP = 300_000, 30_000
# Picoseconds of a microsecond.
PS = 1_000_000
# How long a service takes, in microseconds.
SERVICE = 100
STORED = f"{os.path.dirname(os.path.realpath(__file__))}/theory.json"

# A row: its simulation file, what it measures of an answer, and what the formula says.
Row = namedtuple("Row", "name file of formula")
# A row without chance: its simulation files, how many commands each has, and what tells of their answers and logs what is so.
Exact = namedtuple("Exact", "name files commands check")


def stored():
    """What `tests/theory --write` measured of each row."""
    with open(STORED, encoding="utf-8") as it:
        return json.load(it)


# Simulation files.


def ps(microseconds):
    """A duration in whole picoseconds."""
    return f'"{round(microseconds * PS)}ps"'


def exponential(mean):
    return f"{{ exponential = {ps(mean)} }}"


def gap(time):
    return f"{{ poisson = {ps(time)} }}"


def queue(arrivals, name=None, more=""):
    return (f'class = "{name}"\n' if name else "") + f"arrivals = {arrivals}\n{more}"


def file_of(queues, service, channels=1, settings="", device=""):
    """A simulation file. Each queue is its lines."""
    head = f"version = 1\n{settings}[device]\nchannels = {channels}\nread = {service}\n{device}"
    return head + "".join(f"[[queue]]\n{it}\n" for it in queues)


def weighted(high, medium, low, burst=1):
    told = '"none"' if burst is None else burst
    return f'mechanism = "weighted"\nburst = {told}\nweights = {{ high = {high}, medium = {medium}, low = {low} }}\n'


# What is measured of an answer.


def class_of(told, name):
    return told["all"] if name is None else next(it for it in told["classes"] if it["class"] == name)


def wait_of(member):
    return (member["latency_mean_ps"] - member["service_mean_ps"]) / PS


def wait(name=None):
    return lambda told: wait_of(class_of(told, name))


def wait_in_queue(place):
    return lambda told: wait_of(told["queues"][place])


def wait_of_both(told):
    """The mean wait of the high and the low class together."""
    two = [class_of(told, name) for name in ("high", "low")]
    return sum(wait_of(it) * it["commands"] for it in two) / sum(it["commands"] for it in two)


def part(name, member):
    return lambda told: class_of(told, name)[f"{member}_ps"] / PS


def rate_of_closed(number, think=0):
    """Commands a second, by Little's law: the number of commands in the system by their mean latency, with the time to think."""
    return lambda told: number / (told["all"]["latency_mean_ps"] / PS + think) * PS


# Formulas.


def erlang_c(channels, load):
    """The probability that a command waits on so many channels, each of which is busy for this part of the time."""
    offered = channels * load
    last = offered**channels / math.factorial(channels) / (1 - load)
    return last / (sum(offered**k / math.factorial(k) for k in range(channels)) + last)


def mmc(channels, load, service=SERVICE):
    return erlang_c(channels, load) * service / (channels * (1 - load))


def at_least(least, mean):
    """The probability that a Poisson number of this mean is at least so great."""
    term = math.exp(-mean + least * math.log(mean) - math.lgamma(least + 1))
    total, k = 0.0, least
    while term > 1e-18 * (total + 1e-300) or k < mean:
        total += term
        k += 1
        term *= mean / k
    return total


def mdc(channels, load, service=SERVICE):
    """Crommelin's formula."""
    offered, whole = channels * load, 0.0
    for i in range(1, 2000):
        mean = i * offered
        whole += at_least(i * channels, mean) - channels / offered * at_least(i * channels + 1, mean)
    return whole * service


def mg1(load, mean, second):
    """Pollaczek and Khinchine: with the mean of the services and that of their squares."""
    return load / mean * second / (2 * (1 - load))


def cobham(start, loads):
    """The mean waits of classes of these loads, each of which comes before those behind it, where the wait for the first
    end of a service is this."""
    waits, above = [], 0.0
    for load in loads:
        waits.append(start / ((1 - above) * (1 - above - load)))
        above += load
    return waits


def repairs(channels, number, service, think):
    """How many of a closed host's commands are done in a microsecond, whatever its times to think are spread like."""
    ways = [1.0]
    for k in range(1, number + 1):
        ways.append(ways[-1] * (number - k + 1) * service / think / min(k, channels))
    return sum(min(k, channels) * it for k, it in enumerate(ways)) / sum(ways) / service


# Rows, by what they are about.


def alone(channels, load, service=exponential(SERVICE), mean=SERVICE, more=""):
    """One queue that asks for this load."""
    return file_of([queue(gap(mean / channels / load), None, more)], service, channels)


def one_queue():
    """M/M/c waits by Erlang's C."""
    for channels, load in product((1, 2, 4, 8), (0.5, 0.7, 0.9)):
        yield Row(f"M/M/{channels} at {load}, wait", alone(channels, load), wait(), mmc(channels, load))
    yield Row("M/M/4 at 0.7, utilization", alone(4, 0.7), lambda told: told["utilization"], 0.7)


def latencies():
    """Latencies of M/M/1 are exponential."""
    for name, rest in (("50", 0.5), ("95", 0.05), ("99", 0.01), ("99.9", 0.001)):
        measured = part(None, f"latency_p{name.replace('.', '')}")
        yield Row(f"M/M/1 at 0.7, p{name} of latency", alone(1, 0.7), measured, -math.log(rest) * SERVICE / (1 - 0.7))


def fixed_services():
    """M/D/1 waits by Pollaczek's and Khinchine's formula."""
    for load in (0.5, 0.9):
        yield Row(f"M/D/1 at {load}, wait", alone(1, load, ps(SERVICE)), wait(), mg1(load, SERVICE, SERVICE**2))


def other_services():
    """M/G/1 waits by that formula too. Between two neighbouring quantiles times are spread evenly. In the last row commands come
    in on phases alone."""
    mean, second = 80 * 0.95 + 2000 * 0.05, 80**2 * 0.95 + 2000**2 * 0.05
    for load in (0.5, 0.8):
        file = alone(1, load, '{ usual = "80us", rare = "2ms", one_in = 20 }', mean)
        yield Row(f"M/G/1 of 80 us and once in 20 of 2 ms at {load}, wait", file, wait(), mg1(load, mean, second))
    file = alone(1, 0.7, '{ quantiles = ["60us", "80us", "140us"] }', 90)
    second = ((60**2 + 60 * 80 + 80**2) + (80**2 + 80 * 140 + 140**2)) / 6
    yield Row("M/G/1 of quantiles 60, 80 and 140 us at 0.7, wait", file, wait(), mg1(0.7, 90, second))
    # (a write takes 20 us, and 10 us for each of its eight blocks)
    write = 'write = { fixed = "20us", per_block = "10us" }\nmix = { read = 7, write = 3 }\n'
    file, second = alone(1, 0.7, exponential(50), 65, write), 0.7 * 2 * 50**2 + 0.3 * 100**2
    yield Row("M/G/1 of 7 reads of 50 us to 3 writes of 100 us at 0.7, wait", file, wait(), mg1(0.7, 65, second))
    file = file_of([queue(f'{{ bursts = {{ poisson = {ps(50)}, on = "2ms", off = "3ms" }} }}')], ps(SERVICE))
    yield Row("One in 50 us for 2 of each 5 ms, commands a second", file, lambda told: told["all"]["iops"], PS / 50 * 2 / 5)


LOADS = {"urgent": 0.2, "high": 0.3, "low": 0.3}
WHOLE = sum(LOADS.values())


def three_classes(service, channels, weights):
    queues = [queue(gap(SERVICE / channels / load), name) for name, load in LOADS.items()]
    return file_of(queues, service, channels, weighted(*weights))


def words_of(weights):
    *levels, burst = weights
    return f"{':'.join(map(str, levels))}, burst {burst}"


def classes():
    """Classes wait by Cobham's formula, whose start is the wait for the first end of a service. It holds of the urgent class
    under any weights. Of high over low it is the limit of large weights, so those rows have 256 and 1. Rows of three classes
    come of the same ten samples, whatever the weights, so they aren't independent."""
    for channels, weights in product((1, 4), ((1, 1, 1, 1), (8, 4, 2, 8), (256, 1, 1, 1))):
        urgent, high, low = cobham(mmc(channels, WHOLE) * (1 - WHOLE), LOADS.values())
        file = three_classes(exponential(SERVICE), channels, weights)
        name = f"M/M/{channels} at 0.2, 0.3, 0.3, {words_of(weights)}, wait of"
        yield Row(f"{name} urgent", file, wait("urgent"), urgent)
        yield Row(f"{name} the rest", file, wait_of_both, (high + low) / 2)
        if weights[0] == 256:
            yield Row(f"{name} high", file, wait("high"), high)
            yield Row(f"{name} low", file, wait("low"), low)


def classes_of_fixed_services():
    """Classes of fixed services wait by Cobham's formula too, on one channel."""
    file = three_classes(ps(SERVICE), 1, (256, 1, 1, 1))
    for name, formula in zip(LOADS, cobham(WHOLE * SERVICE / 2, LOADS.values()), strict=True):
        yield Row(f"M/D/1 at 0.2, 0.3, 0.3, 256:1:1, burst 1, wait of {name}", file, wait(name), formula)


def classes_of_two_services():
    """Classes whose services differ wait by Cobham's formula too."""
    queues = [queue(gap(250), "urgent", f"read = {exponential(50)}"), queue(gap(400), "low", f"read = {exponential(200)}")]
    file = file_of(queues, ps(1), 1, weighted(1, 1, 1))
    for name, formula in zip(("urgent", "low"), cobham(50**2 / 250 + 200**2 / 400, (0.2, 0.5)), strict=True):
        yield Row(f"M/M/1, urgent of 50 us at 0.2 and low of 200 us at 0.5, wait of {name}", file, wait(name), formula)


def all_classes_together():
    """Cobham's formula has no like for a class of fixed services on four channels. All classes together wait as without classes,
    by Crommelin's formula."""
    for weights in ((8, 4, 2, 8), (256, 1, 1, 1)):
        file = three_classes(ps(SERVICE), 4, weights)
        yield Row(f"M/D/4 at 0.2, 0.3, 0.3, {words_of(weights)}, wait of all", file, wait(), mdc(4, WHOLE))


def round_robin():
    """Queues of one load that are served in turn wait as one queue would."""
    file = file_of([queue(gap(4 * SERVICE / 0.7))] * 4, exponential(SERVICE), 1, 'mechanism = "round-robin"\nburst = 1\n')
    for place in range(4):
        yield Row(f"M/M/1 at 0.7, four queues in turn, wait of queue {place + 1}", file, wait_in_queue(place), mmc(1, 0.7))


def vacations():
    """Over low commands without end, of fixed services S, an urgent one waits S / 2 + load * S / (2 * (1 - load)) for arbitration
    (vacations of one service). It does so under any burst, and in a device of depth d waits d - 1 services more."""
    service, load = 80, 0.1
    for burst, depth in ((1, 1), (8, 1), (None, 1), (8, 8)):
        queues = [queue(gap(service / load), "urgent"), queue("{ closed = 64 }", "low")]
        file = file_of(queues, ps(service), 1, weighted(256, 256, 256, burst), f"depth = {depth}\n")
        name = f"80 us each, urgent at 0.1 over low without end, burst {'none' if burst is None else burst}, depth {depth}"
        arbitration = service / 2 + load * service / (2 * (1 - load))
        yield Row(f"{name}, arbitration", file, part("urgent", "arbitration_mean"), arbitration)
        yield Row(f"{name}, device", file, part("urgent", "device_mean"), (depth - 1) * service)


def stripes():
    """Of N closed commands on c stripes, of exponential services and uniform places, c * N / (N + c - 1) are done in a mean
    service. What is measured is N / mean latency, by Little's law."""
    for channels, number in ((4, 4), (8, 32), (16, 64)):
        device = f'depth = {number}\nplacing = "striped"\n'
        file = file_of([queue(f"{{ closed = {number} }}")], exponential(SERVICE), channels, "", device)
        formula = channels * number / (number + channels - 1) / SERVICE * PS
        yield Row(f"{number} closed on {channels} stripes, commands a second", file, rate_of_closed(number), formula)


def hosts_that_think():
    """Closed commands that think are the machines of the machine repair model with exponential services, in which only the mean
    think time matters. What is measured is N / (mean latency + think), by Little's law."""
    for channels, number, think in ((1, 8, 400), (4, 16, 200)):
        file = file_of([queue(f"{{ closed = {number}, think = {ps(think)} }}")], exponential(SERVICE), channels)
        name = f"{number} closed that think {think} us on a pool of {channels}, commands a second"
        yield Row(name, file, rate_of_closed(number, think), repairs(channels, number, SERVICE, think) * PS)


# Rows without chance.


def longest(want, runs):
    """Each command has the latency that is wanted of it."""
    ((told, log),) = runs
    assert [it["done_ps"] - it["came_ps"] for it in log] == want, "other latencies"
    assert told["all"]["latency_max_ps"] == want[-1] and told["all"]["latency_mean_ps"] == sum(want) // len(want), told["all"]
    return f"the longest latency is {want[-1] // PS}"


def regular():
    """Of a device that keeps up with regular commands nothing ever waits, and with one that doesn't each command waits longer."""
    for channels, every, service in ((1, 100, 80), (1, 80, 80), (4, 20, 80), (1, 80, 100)):
        late = max(0, service - channels * every)
        want = [(service + late * (n // channels)) * PS for n in range(5000)]
        file = file_of([queue(f"{{ every = {ps(every)} }}")], ps(service), channels)
        yield Exact(f"D/D/{channels}, each {every} us one of {service} us", [file], 5000, partial(longest, want))


def in_shares(runs):
    """Any 14 picks one after another are 8, 4 and 2 of the three queues."""
    ((told, log),) = runs
    assert told["all"]["commands"] == 20_000, told["all"]
    # (the first and last ones aside, when some class has none)
    picks = [it["queue"] for it in sorted(log, key=lambda it: it["picked_ps"])][140:-400]
    for at in range(len(picks) - 13):
        assert Counter(picks[at:at + 14]) == {1: 8, 2: 4, 3: 2}, f"from pick {at} on {picks[at:at + 14]}"
    return f"8:4:2 in any 14 of {len(picks)} picks"


def saturated():
    """Three closed classes of 100 commands each always have some to do, at weights of 8:4:2."""
    queues = [queue("{ closed = 100 }", name) for name in ("high", "medium", "low")]
    for channels, burst in product((1, 4), (1, 8, None)):
        file = file_of(queues, exponential(SERVICE), channels, weighted(8, 4, 2, burst))
        yield Exact(f"Saturated, burst {'none' if burst is None else burst}, channels {channels}", [file], 20_000, in_shares)


def first_come(came, channels):
    """When commands of 80 us that came at these times are done, if the first that came is the first to start."""
    free, done = [0] * channels, []
    for at in came:
        done.append(max(at, free[0]) + 80 * PS)
        heapq.heapreplace(free, done[-1])
    return done


def same_ends(channels, runs):
    """Under each setting the commands are done at the times of first come, first served."""
    for _, log in runs:
        want = first_come(sorted(it["came_ps"] for it in log), channels)
        assert sorted(it["done_ps"] for it in log) == sorted(want), "other ends than first come, first served"
    means = {told["all"]["latency_mean_ps"] for told, _ in runs}
    assert len(means) == 1, f"means of {means}"
    return f"{len(runs[0][1])} ends and the mean {means.pop() / PS:.3f} of {len(runs)} settings"


def equal_services():
    """Where all services take equally long, here 80 us at a load of 0.9 of three classes, commands are done at the same times
    under any arbitration: as if the first that came was the first to start. The settings are round robin, 1:1:1 with burst 1,
    8:4:2 with burst 8 and 256:16:1 with burst none."""
    weights = [weighted(1, 1, 1, 1), weighted(8, 4, 2, 8), weighted(256, 16, 1, None)]
    for channels in (1, 4, 8):
        queues = [queue(gap(80 / channels / 0.3), name) for name in ("high", "medium", "low")]
        files = [file_of(queues, ps(80), channels, it) for it in ['mechanism = "round-robin"\nburst = 1\n', *weights]]
        yield Exact(f"Equal services on a pool of {channels}", files, 40_000, partial(same_ends, channels))


MEASURED = (
    one_queue,
    latencies,
    fixed_services,
    other_services,
    classes,
    classes_of_fixed_services,
    classes_of_two_services,
    all_classes_together,
    round_robin,
    vacations,
    stripes,
    hosts_that_think,
)
EXACT = (regular, saturated, equal_services)
