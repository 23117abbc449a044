"""Spines as the program follows them: what `records` says of each token is what `extract -f` keeps."""
import random

import humpipe
from humpipe import Fault

from .support import Runs, made_score


class Threads(Runs):
    def test_spines_are_those_of_extract(self):
        chance = random.Random(1)
        compared = 0
        for _ in range(60):
            score = made_score(chance)
            self.assertEqual(humpipe.run('out: read a', {'a': score}), score)
            found = list(humpipe.records(score))
            for field in range(1, len(found[0].spines or found[1].spines) + 1):
                try:
                    kept = humpipe.run(f'out: read a | extract -f {field}', {'a': score})
                except Fault as fault:
                    self.assertIn(fault.rule, ('X1', 'X3'))
                    continue
                wanted = ['\t'.join(token for token, spine in zip(record.tokens, record.spines) if spine == field)
                          for record in found if record.kind == 'data' and field in record.spines]
                self.assertEqual([line for line in kept.split('\n')[:-1] if line[0] not in '!*'], wanted, score)
                compared += 1
        self.assertGreater(compared, 100)
