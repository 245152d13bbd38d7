#!/usr/bin/env python3
"""Random search for a list of calls that breaks a claim: `python3 search_claims.py SECONDS SEED`.

Small layers with extreme numbers, steps mostly as long as they may be, loads that jump; every third begins in start 2.
After every single step the claims of `Tally` (test_reference.py) are checked, and after a first step of 1,000 s from
start 2 that no element's water changed by more than 1 nm. Prints each counterexample as a script, and a count at the
end.
"""

import sys
import time

import makers
import rules
from chance import Chance
from lists import answer_call
from steady import repaired, with_flows
from test_reference import Tally


def extreme_solids(chance):
    """One to four elements, thin, thick, or of heights that divide the void unit or just do not."""
    pool = [100_000, 100_001, 100_000_000, 99_999_999, 50_000_000, 1_000_000, 33_333_333, 66_666_667,
            chance.scaled(*rules.SOLIDS)]
    return [chance.pick(pool) for _ in range(chance.pick([1, 1, 2, 2, 3, 4]))]


def extreme_curve(chance):
    """Two to five points: one unit of void ratio or all, one unit of stress or all."""
    width = chance.pick([1, 3, 10, 1_000, 100_000, 10**7, 10**8, chance.scaled(1, 10**9 - 1), 10**9 - 1])
    low = chance.between(1, 10**9 - width)
    rise = chance.pick([1, 2, 7, width, width + 1, 10**6, 2 * 10**9, chance.scaled(1, 2 * 10**9)])
    first = chance.between(0, 2 * 10**9 - rise)
    count = min(chance.between(2, 5), width + 1, rise + 1)
    voids = distinct(chance, count, low, low + width)
    stresses = distinct(chance, count, first, first + rise)
    return list(zip(stresses, reversed(voids)))


def distinct(chance, count, low, high):
    """Rising numbers from low to high with uneven distances."""
    chosen = {low, high}
    while len(chosen) < count:
        chosen.add(chance.between(low, high))
    return sorted(chosen)


QUICK, SLOW = (1, 2, 3, 10), (1_000, 1_001, 1_300, 4_000)  # seconds of longest steps


def extreme_job(chance, seconds=QUICK):
    """A job whose longest step is mostly a few seconds, or about others."""
    solids = extreme_solids(chance)
    curve1 = extreme_curve(chance)
    curve = rules.Compressibility(curve1)
    slowest = max(1, makers.usual_step(solids, curve, 1))
    most = max(1, min(10**9, slowest // chance.pick([*seconds, chance.scaled(seconds[0], 10**6)])))
    least = chance.pick([most, 1, max(1, most // 2)])
    low, high = chance.pick([(1, 10**9), (curve.least_void, curve.greatest_void)])
    top, bottom = chance.pick([(1, 0), (1, 1), (1, 1), (0, 1), (0, 0)])
    top_level = chance.pick([0, 2 * 10**11, chance.between(0, 2 * 10**11)])
    head = (curve.stresses[-1] - curve.stresses[0]) * 100
    level = chance.pick([top_level, 0, 2 * 10**11, top_level + chance.between(-500, 500), chance.between(0, 2 * 10**11),
                         top_level + chance.between(0, head), top_level - chance.between(0, head)])
    level = min(max(level, 0), 2 * 10**11) if bottom else 0
    loads = [some_load(chance, curve.stresses) for _ in range(4)]
    times = [0] + distinct(chance, 3, 1, chance.scaled(8, 10**6))
    size = chance.pick([1, 1, 4])
    start = chance.pick([0, 0, 1])
    water = [0] * len(solids) if start else makers.make_water(chance, solids, curve1)
    return rules.Job(
        top=top, bottom=bottom, start=start, gravity=chance.pick([1_000, 1_000, 1_000, 1_001, 2_650, 5_000]),
        top_level=top_level, bottom_level=level, elements=list(zip(solids, water)), curve1=curve1,
        curve2=[(low, least), (high, most)], table=list(zip(times, loads))[:size])


def steady_job(chance):
    """A job in start 2 that is often steady, whose longest step is mostly 1,000 seconds or more."""
    job = extreme_job(chance, SLOW)
    flow = chance.pick([0, 0, 1, -1, chance.between(-50, 50)]) * 1_000 + chance.between(0, 999)
    return repaired(with_flows(job, [flow] * (len(job.elements) + 1)))


def some_load(chance, stresses):
    """A load mostly within the curve."""
    within = chance.between(stresses[0], stresses[-1])
    return chance.pick([within, within, within, chance.pick(stresses), chance.pick(stresses),
                        chance.pick([0, 2 * 10**9, chance.between(0, 2 * 10**9)])])


def one_call(chance, record, gentle):
    """A call: a step at its limit, a load, or a run of one step."""
    longest = max(1, makers.possible_step(record))
    kind = chance.pick(["step", "step", "step", "load", "run", "run"])
    if kind == "step":
        return "step", [chance.pick([longest, longest, longest, 1, chance.between(1, longest)])]
    if kind == "run":
        return "run", [min(3 * 10**9, record.clock + chance.scaled(1, 10**7)), 1]
    stresses = [stress for stress, _ in record.first_points()]
    load = chance.pick([some_load(chance, stresses), some_load(chance, stresses),
                        min(2 * 10**9, record.load + chance.scaled(1, 10**6)), max(0, record.load - 1)])
    return "load", [max(load, record.load) if gentle else load]


def search(seconds, seed):
    """Make lists until the time is over."""
    finish = time.time() + seconds
    index = lists = steady = calm = checks = moved = at_bound = found = 0
    while time.time() < finish:
        chance = Chance(seed, index)
        index += 1
        job = rules.job_bytes(steady_job(chance) if index % 3 == 0 else extreme_job(chance))
        refusal, record = rules.open_job(job)
        if refusal:
            continue
        lists += 1
        tally = Tally(record)
        gentle = chance.one_in(2)
        lines = ["job " + job.hex()]
        steady += job[11] == rules.STEADY
        calm_step = job[11] == rules.STEADY and chance.one_in(2)
        for _ in range(chance.between(5, 40)):
            water = record.water_heights()
            name, numbers = ("step", [1_000]) if calm_step else one_call(chance, record, gentle)
            lines.append(" ".join([name] + [str(number) for number in numbers]))
            answer = answer_call(record, name, numbers)
            tally.set_load(record.load)
            checks += 1
            moved += water != record.water_heights()
            excess = rules.excess_pressures(record)
            at_bound += min(excess) == tally.low - tally.falls or max(excess) == tally.high + tally.rises
            faults = tally.faults(record)
            if calm_step and answer == "step 0":
                calm += 1
                if any(abs(new - old) > 1 for new, old in zip(record.water, water)):
                    faults.append("first step from start 2")
            calm_step = False
            if faults or answer.endswith(" 11"):
                found += 1
                print("\n".join(["broken: " + ", ".join(faults)] + lines + [""]))
                break
    print("%d lists, %d from start 2, %d with a first step of 1,000 s; %d calls checked, %d moved water, "
          "%d with an excess pressure at its bound, %d counterexamples"
          % (lists, steady, calm, checks, moved, at_bound, found))


if __name__ == "__main__":
    search(float(sys.argv[1]), int(sys.argv[2]))
