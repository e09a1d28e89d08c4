"""A study on a cluster, by dask.distributed (on Debian: python3-distributed). One of two workers is ended in the midst.

    python3 cluster.py [INSTANCES]

How much more than the least does Optimal Available spend, with a power of speed * speed * speed? Workers get seeds and
give back numbers. A worker has 100 seeds at once, as a task of its own costs more than an instance.
"""

import os
import random
import signal
import statistics
import sys
from typing import Iterable, List, Sequence

import yds
from distributed import Client, LocalCluster, as_completed

AT_ONCE = 100


def ratio(seed: int) -> float:
    """Of one instance of 20 jobs."""
    draw = random.Random(seed)
    releases = [draw.randrange(200) for _ in range(20)]
    windows = [(release, release + draw.randrange(4, 151)) for release in releases]
    document = yds.Document((f"j{place}", *window, draw.randrange(1, 121)) for place, window in enumerate(windows))
    return document.oa().energy_for(3.0) / document.plan().energy_for(3.0)


def ratios(seeds: Iterable[int]) -> List[float]:
    """Of several instances, one after another."""
    return [ratio(seed) for seed in seeds]


def study(client: Client, count: int, end_one: bool = False) -> List[float]:
    """The ratios of so many instances, in the order of their seeds. With end_one a worker is killed in the midst."""
    parts = [range(first, min(first + AT_ONCE, count)) for first in range(0, count, AT_ONCE)]
    futures = client.map(ratios, parts)
    for done, _ in enumerate(as_completed(futures), 1):
        if end_one and done == len(parts) // 2:
            workers = client.run(os.getpid)
            os.kill(min(workers.values()), signal.SIGKILL)
            print(f"{done} of {len(parts)} parts are done, and one of {len(workers)} workers is ended")
    return [found for part in client.gather(futures) for found in part]


def main(words: Sequence[str]) -> None:
    count = int(words[0]) if words else 10000
    with LocalCluster(n_workers=2, threads_per_worker=1, dashboard_address=None) as cluster, Client(cluster) as client:
        found = study(client, count, end_one=True)
    print(f"{len(found)} instances: mean {statistics.fmean(found):.4f}, greatest {max(found):.4f}")
    print("as without a cluster:", found == yds.map(ratio, range(count)))


if __name__ == "__main__":
    main(sys.argv[1:])
