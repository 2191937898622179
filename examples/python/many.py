"""Many studies: so many drawn ones, each loaded, built, swept and told as a table of bits, one after the other, by a pool of processes and, with --dask, by a Dask cluster on this machine. It prints how many rows and
refusals there were and a sum of all bits, which is the same by each; how long each took goes to standard error.

    tools/library && PYTHONPATH=python python3 examples/python/many.py [COUNT] [--dask]
"""

import argparse
import hashlib
import logging
import os
import sys
import time

import katydidzinc as kz

WORKERS = len(os.sched_getaffinity(0))


def run(study):
    """The bits of a study's rows after one step, and their number."""
    study.load()
    rows = study.build()
    study.sweep(4)
    study.remove_bias()
    study.sweep(4)
    study.write_back()
    return rows, memoryview(study.rows).tobytes()


def studies(count):
    """Every hundredth has a dt below zero, which is refused."""
    for seed in range(count):
        study = kz.seeded(seed)
        if seed % 100 == 99:
            study.dt = -study.dt
        yield study


def one_after_the_other(count):
    for study in studies(count):
        try:
            yield run(study)
        except kz.Refused as refused:
            yield refused


def told(answers):
    """How many rows and refusals, and the sum of all in their order."""
    total, rows, refused = hashlib.sha256(), 0, 0
    for answer in answers:
        if isinstance(answer, kz.Refused):
            refused += 1
            total.update(repr(answer).encode())
        else:
            rows += answer[0]
            total.update(answer[1])
    return f"{rows} rows, {refused} refused, sum {total.hexdigest()}"


def by_pool(count):
    return kz.run_many(studies(count), run)


def by_dask(count):
    import distributed

    with distributed.LocalCluster(n_workers=WORKERS, threads_per_worker=1, dashboard_address=None, silence_logs=logging.CRITICAL) as cluster, distributed.Client(cluster) as client:
        with client.get_executor() as executor:
            return kz.run_many(studies(count), run, executor)


def timed(name, answers, count):
    """What is told of the answers. The time is that on the wall and that of the processors, with the start of the processes."""
    began, used = time.perf_counter(), sum(os.times()[:4])
    found = told(answers(count))
    print(f"{name}: {time.perf_counter() - began:.1f} s, {sum(os.times()[:4]) - used:.1f} s of processors", file=sys.stderr)
    return found


def main():
    parser = argparse.ArgumentParser(description="many studies")
    parser.add_argument("count", nargs="?", type=int, default=1000, metavar="COUNT")
    parser.add_argument("--dask", action="store_true")
    wanted = parser.parse_args()
    first = timed("one after the other", one_after_the_other, wanted.count)
    print(f"{wanted.count} studies: {first}")
    ways = {f"a pool of {WORKERS} processes": by_pool, **({f"Dask, {WORKERS} workers": by_dask} if wanted.dask else {})}
    found = {name: timed(name, way, wanted.count) for name, way in ways.items()}
    for name, other in found.items():
        if other != first:
            print(f"{name}: OTHER BITS: {other}")
            sys.exit(1)
    print("the same by each")


if __name__ == "__main__":
    main()
