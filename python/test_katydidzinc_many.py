"""Tests of run_many: what many studies answer does not depend on who runs them, in bits, and their order is kept."""

import concurrent.futures
import io
import os
import sys
import unittest
from unittest import mock

import katydidzinc as kz

SEEDS = 300
CALLS = kz.Calls("load", "build", ("sweep", 4), "remove_bias", ("sweep", 2), "write_back", "table")


def frames(study):
    """A motion's impulses and poses as bytes. Of the drawn studies some are refused: they leave the finite numbers."""
    study.load()
    motion = study.simulate(3, 2, 2, 1.0)
    return repr((motion.rows, [list(map(float, moment)) for moment in motion.impulses], [[list(map(float, pose)) for pose in moment] for moment in motion.poses]))


def written(study):
    """What a run gets, and that it may write there."""
    before = study.built
    study.build()
    return before


def wrong(study):
    if len(study.body_names) == 7:
        raise KeyError("seven")
    return os.getpid()


def bits(answers):
    """Tables in bits, refusals as they are."""
    return [repr(one) if isinstance(one, kz.Refused) else one.csv() if isinstance(one, kz.Table) else one for one in answers]


def studies(count=SEEDS):
    found = [kz.seeded(seed) for seed in range(count)]
    for k in range(3, count, 10):
        found[k].dt = -1.0
    return found


def one_after_the_other(run, count=SEEDS):
    found = []
    for study in studies(count):
        try:
            found.append(run(study))
        except kz.Refused as refused:
            found.append(refused)
    return found


class Many(unittest.TestCase):
    def test_pools(self):
        for run in (CALLS, frames):
            wanted = bits(one_after_the_other(run))
            self.assertEqual(sum(one.startswith("Refused('load', 7, Place(kind='setting', name='dt'") for one in wanted), SEEDS // 10)
            self.assertEqual(bits(kz.run_many(studies(), run)), wanted)
            with concurrent.futures.ProcessPoolExecutor(3) as pool:
                self.assertEqual(bits(kz.run_many(iter(studies()), run, pool, ahead=2)), wanted)
            with concurrent.futures.ThreadPoolExecutor(4) as pool:
                self.assertEqual(bits(kz.run_many(studies(), run, executor=pool)), wanted)

    def test_pairs(self):
        """Each study with a run of its own."""
        runs = [kz.Calls("load"), kz.Calls("load", "build"), kz.Calls("build", "reactions")]
        found = kz.run_many([(kz.seeded(seed), runs[seed % 3]) for seed in range(30)])
        self.assertEqual(repr(found), repr([runs[seed % 3](kz.seeded(seed)) for seed in range(30)]))

    def test_copies(self):
        """A run gets a copy, in whichever process it runs."""
        for pool in (concurrent.futures.ThreadPoolExecutor(2), concurrent.futures.ProcessPoolExecutor(2)):
            with pool:
                study = kz.seeded(1)
                self.assertEqual(kz.run_many([study] * 5, written, pool), [False] * 5)
                self.assertFalse(study.built)

    def test_error(self):
        number = next(seed for seed in range(100) if len(kz.seeded(seed).body_names) == 7)
        for pool in (concurrent.futures.ThreadPoolExecutor(2), concurrent.futures.ProcessPoolExecutor(2)):
            with pool, self.assertRaises(KeyError) as caught:
                kz.run_many([kz.seeded(seed) for seed in range(number + 1)], wrong, pool)
            self.assertEqual(caught.exception.study, number)

    def test_none(self):
        self.assertEqual(kz.run_many([], CALLS), [])

    def test_calls(self):
        self.assertEqual(repr(CALLS), "Calls('load', 'build', ('sweep', 4), 'remove_bias', ('sweep', 2), 'write_back', 'table')")
        with self.assertRaisesRegex(ValueError, "a study has no call 'biuld': did you mean 'build'"):
            kz.Calls("load", "biuld")
        with self.assertRaises(ValueError):
            kz.Calls()
        with self.assertRaisesRegex(TypeError, "did you mean 'executor'"):
            kz.run_many([], CALLS, executer=None)

    def test_progress(self):
        class Terminal(io.StringIO):
            def isatty(self):
                return True

        for stream, progress, shown in ((Terminal(), None, True), (io.StringIO(), None, False), (io.StringIO(), True, True), (Terminal(), False, False)):
            with mock.patch.object(sys, "stderr", stream):
                kz.run_many(studies(20), CALLS, progress=progress)
            self.assertEqual(stream.getvalue().split("\r")[-1].startswith("20 of 20 studies, 2 refused, "), shown)

    def test_dask(self):
        try:
            import distributed
        except ImportError:
            print("Dask: left out, because distributed is not installed")
            return
        import logging
        import warnings

        wanted = bits(one_after_the_other(CALLS, 100))
        # a cluster that ends on a busy machine has things to say of itself
        warnings.simplefilter("ignore")
        with distributed.LocalCluster(n_workers=2, threads_per_worker=1, dashboard_address=None, silence_logs=logging.CRITICAL) as cluster, distributed.Client(cluster) as client:
            with client.get_executor() as executor:
                self.assertEqual(bits(kz.run_many(studies(100), CALLS, executor)), wanted)


if __name__ == "__main__":
    unittest.main(verbosity=0)
