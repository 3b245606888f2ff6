"""Searches that an executor spreads over threads, processes or a cluster."""
import functools
import hashlib
import importlib.util
import json
import multiprocessing
import os
import pathlib
import tempfile
import unittest
from concurrent.futures import ProcessPoolExecutor, ThreadPoolExecutor

from toxicap import proxy, toxic
from toxicap.search import least_seed, shrink

GET = (pathlib.Path(__file__).resolve().parents[3] / "samples/http-get.pcap").read_bytes()


def seldom(outputs):
    """Some seeds only."""
    return hashlib.sha256(outputs[0].report).digest()[0] == 7


def at_fault(outputs):
    raise NameError("at fault")


def ends_once(path, outputs):
    """Ends its process, but only the first one."""
    if not os.path.exists(path):
        pathlib.Path(path).touch()
        os._exit(1)


class Executors(unittest.TestCase):
    def spreads(self, executor):
        """The same seeds and scenarios by an executor as in this process, and none where there is none."""
        late = [proxy("10.77.0.2:80", toxic("latency", latency=90, jitter=80))]
        words = GET, [json.dumps(late).encode()], b"", seldom
        self.assertEqual(least_seed(*words, 1000, executor=executor), least_seed(*words, 1000))
        seed = least_seed(*words, 1000)
        for start in seed + 1, 400:
            self.assertEqual(least_seed(*words, 1000, start=start, executor=executor), least_seed(*words, 1000, start=start))
        self.assertIsNone(least_seed(*words, seed, executor=executor))
        found = [shrink(words[0], words[1][0], seldom, words[2], below=seed + 1, **more) for more in ({}, {"executor": executor})]
        self.assertEqual(found[0], found[1])
        with self.assertRaisesRegex(NameError, "^at fault$"):
            least_seed(GET, [[]], b"", at_fault, 9, executor=executor)

    def test_executors(self):
        for executor in (ThreadPoolExecutor(3), ProcessPoolExecutor(2, mp_context=multiprocessing.get_context("spawn"))):
            with executor:
                self.spreads(executor)

    def test_what_no_worker_can_have(self):
        with ProcessPoolExecutor(1, mp_context=multiprocessing.get_context("spawn")) as executor:
            with self.assertRaisesRegex(TypeError, "^a worker can't have the predicate: write it at the top of a module, not as a lambda"):
                least_seed(GET, [[]], b"", lambda outputs: True, 9, executor=executor)

    def test_a_lost_worker(self):
        """Its seeds are tried again."""
        with tempfile.TemporaryDirectory() as folder, ProcessPoolExecutor(1, mp_context=multiprocessing.get_context("spawn")) as executor:
            predicate = functools.partial(ends_once, os.path.join(folder, "ended"))
            with self.assertLogs("toxicap") as told:
                self.assertIsNone(least_seed(GET, [[]], b"", predicate, 50, executor=executor))
        self.assertIn("a worker failed, so the seeds from 0 to 3 are tried here: BrokenProcessPool", told.output[0])

    @unittest.skipUnless(importlib.util.find_spec("distributed"), "distributed is not here")
    def test_a_cluster(self):
        from distributed import Client, LocalCluster

        with LocalCluster(n_workers=2, threads_per_worker=1, dashboard_address=None) as cluster, Client(cluster) as client:
            self.spreads(client.get_executor())


if __name__ == "__main__":
    unittest.main()
