"""Corpora on the workers of Dask, where it is installed."""
import os
import signal
import threading
import time
import unittest
from pathlib import Path

import humpipe

from .support import FROM_STDIN, SCORE, Runs
from .test_corpus import rows, results_below

try:
    from distributed import Client, LocalCluster
except ImportError:
    Client = None


@unittest.skipUnless(Client, 'no distributed')
class Dask(Runs):
    def test_a_worker_is_killed_in_the_middle(self):
        for k in range(400):
            self.write(f'scores/{k:03}.krn', SCORE.replace('8a', '4c4e') if k % 20 == 7 else SCORE)
        into = self.folder / 'results'
        os.chdir(self.folder)
        self.addCleanup(os.chdir, '/')
        with LocalCluster(n_workers=2, threads_per_worker=1, dashboard_address=None, scheduler_port=0) as cluster, Client(cluster) as client:
            workers = client.run(os.getpid)
            self.assertEqual(len(set(workers.values())), 2)

            def kill_one():
                while len(list(into.glob('*.krn'))) < 50:
                    time.sleep(0.005)
                os.kill(next(iter(workers.values())), signal.SIGKILL)

            killer = threading.Thread(target=kill_one)
            killer.start()
            summary = humpipe.corpus(FROM_STDIN, [self.folder / 'scores'], into, executor=client.get_executor(), jobs=2)
            killer.join()
        self.assertEqual((summary.scores, summary.refused, summary.failed), (400, 20, []))
        table = rows(into)
        self.assertEqual(len(table), 400)
        self.assertEqual(len(results_below(into)), 380)
        for name in results_below(into):
            self.assertEqual((into / name).read_text(), '**mint\n[g]\n+M2\n+M2\n*-\n')
        lines = Path(into, '.humpipe/1-of-1.jsonl').read_text().split('\n')
        self.assertEqual(sum(line.startswith('[') for line in lines), 400)

    def test_map(self):
        scores = [self.write(f'{k}.krn', SCORE) for k in range(20)]
        with LocalCluster(n_workers=2, threads_per_worker=1, dashboard_address=None, scheduler_port=0) as cluster, Client(cluster) as client:
            found = list(humpipe.map(FROM_STDIN, scores, executor=client.get_executor()))
        self.assertEqual([outcome.path for outcome in found], [str(score) for score in scores])
