# 200 instances: how much more than the least does each policy spend?
#
# Lines with %% begin a cell, for editors that run a script as a notebook.
#
#   python3 ratios.py              the numbers
#   python3 ratios.py PICTURE      and a picture, by matplotlib (on Debian: apt-get install python3-matplotlib)

# %% Each policy's slots of each instance, judged.
import statistics
import sys
from typing import Dict, List

import yds
from governor import drawn, govern

COUNT = 200
POLICIES = {
    "Average Rate": lambda document: document.avr(),
    "Optimal Available": lambda document: document.oa(),
    "governor, each 5 units": lambda document: govern(document.jobs, 5),
}

ratios: Dict[str, List[float]] = {policy: [] for policy in POLICIES}
late: Dict[str, int] = {policy: 0 for policy in POLICIES}
rounded = 0
for seed in range(COUNT):
    document = yds.Document(drawn(seed))
    least = document.plan().energy_for(3.0)
    for policy, call in POLICIES.items():
        run = call(document)
        slots = run.slots if isinstance(run, yds.Run) else run
        rounded += isinstance(run, yds.Run) and not run.exact
        if yds.schedule.judge(document, slots):
            ratios[policy].append(yds.energy.of_slots(slots, 3.0) / least)
        else:
            late[policy] += 1

# %% The numbers.
print(f"{'policy':24}{'feasible':>10}{'late':>6}{'mean':>9}{'median':>9}{'greatest':>10}")
for policy, found in ratios.items():
    mean, median, greatest = statistics.fmean(found), statistics.median(found), max(found)
    print(f"{policy:24}{len(found):10}{late[policy]:6}{mean:9.4f}{median:9.4f}{greatest:10.4f}")
print(f"{rounded} runs of the online policies were rounded up to parts of 1/720720 of a unit of work")

# %% The picture: which part of the feasible runs spends at most so many times the least.
if len(sys.argv) > 1:
    import matplotlib

    matplotlib.use("Agg")
    matplotlib.rcParams.update({"svg.fonttype": "none", "svg.hashsalt": "yds", "font.size": 11})
    from matplotlib import pyplot

    figure, axes = pyplot.subplots(figsize=(8, 4.2), layout="constrained")
    for policy, found in ratios.items():
        rising = sorted(found)
        shares = [100 * (place + 1) / len(rising) for place in range(len(rising))]
        label = policy + (f" ({late[policy]} of {COUNT} late)" if late[policy] else "")
        axes.step([1, *rising], [0, *shares], where="post", label=label)
    axes.set_xlim(1, 4)
    axes.set_xlabel("energy, as a multiple of the least")
    axes.set_ylabel("feasible runs (%)")
    axes.set_title(f"{COUNT} instances of 20 jobs, power = speed³", loc="left")
    axes.grid(alpha=0.3)
    axes.legend(frameon=False)
    figure.savefig(sys.argv[1], metadata={"Date": None} if sys.argv[1].endswith(".svg") else None)
