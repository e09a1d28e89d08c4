"""How much more than the least do seven policies spend? python3 study.py [INSTANCES OF EACH KIND [PICTURE]]"""
import functools, math, random, statistics, sys
from itertools import accumulate, product
import yds
KINDS = {  # Of a job the release and the deadline.
    "uniform": lambda draw: (start := draw.randrange(200), start + draw.randrange(4, 151)),
    "bursty": lambda draw: (start := 50 * draw.randrange(4), start + draw.randrange(4, 151)),
    "nested": lambda draw: (100 - (half := draw.randrange(2, 101)), 100 + half)}
POWERS = {"speed^2": 2.0, "speed^3": 3.0, "table": [(v, 500 + v**3) for v in (0, 10, 20, 40, 80, 160, 320, 640, 5000)]}
def needed(at):  # the speed of Optimal Available
    return max(work / (job.deadline - at.now) for work, job in zip(accumulate(j.left for j in at.pending), at.pending))
def bkp(at):  # Bansal, Kimbrel, Pruhs, J. ACM 2007
    spans = {(math.e * at.now - (math.e - 1) * job.deadline, job.deadline) for job in at.pending}
    return max(sum(j.work for j in at.released if a <= j.release and j.deadline <= b) / (b - at.now) for a, b in spans)
OWN = {"5/3 of its speed": lambda at: 5 / 3 * needed(at), "9/10 of its speed": lambda at: 0.9 * needed(at),
    "sum of densities": lambda at: sum(job.left / (job.deadline - at.now) for job in at.pending),
    "all by the next": lambda at: sum(job.left for job in at.pending) / (at.pending[0].deadline - at.now), "BKP": bkp}
POLICIES = {"Average Rate": yds.Document.avr, "Optimal Available": yds.Document.oa,
    **{name: functools.partial(yds.simulate, policy=own, every=1 if own is bkp else None) for name, own in OWN.items()}}
def study(instance):
    kind, draw = instance[0], random.Random(repr(instance))
    document = yds.Document((f"j{place}", *KINDS[kind](draw), draw.randrange(1, 201)) for place in range(50))
    least, runs = document.plan(), {name: policy(document) for name, policy in POLICIES.items()}
    return {(name, power, kind): float(run.energy_for(rule) / least.energy_for(rule))
        for name, run in runs.items() if run.audit() for power, rule in POWERS.items()}
def main(count="1000", picture=None):
    each = yds.map(study, [(kind, seed) for kind in KINDS for seed in range(int(count))])
    found = {key: [one[key] for one in each if key in one] for key in product(POLICIES, POWERS, KINDS)}
    print(" " * 18 + " late" + "".join(f"{' '.join(key):>16}" for key in product(POWERS, KINDS)))
    for name in POLICIES:
        means = [statistics.fmean(found[(name, *key)] or [math.nan]) for key in product(POWERS, KINDS)]
        late = len(each) - sum(len(found[name, "table", kind]) for kind in KINDS)
        print(f"{name:18}{late:5}" + "".join(f"{'-' if math.isnan(mean) else f'{mean:.4f}':>16}" for mean in means))
    if picture:
        from matplotlib import pyplot
        for kind, one in zip(KINDS, pyplot.subplots(1, 3, sharey=True, figsize=(12, 4), layout="constrained")[1]):
            one.boxplot([found[name, "speed^3", kind] for name in POLICIES], vert=False)
            one.set(xlabel=f"times the least, {kind}", yticks=range(1, 8), yticklabels=POLICIES, xscale="log")
        pyplot.savefig(picture)
if __name__ == "__main__": main(*sys.argv[1:])
