"""The line that is told, as an exception."""
import pickle
import unittest

from humpipe import Fault, PlanFault, RunError
from humpipe.codes import CODES
from humpipe.faults import error_of


class Told(unittest.TestCase):
    def test_a_stage_refuses(self):
        fault = error_of('humpipe: stage 12 (mint), line 4294967296: TR1', 'text')
        self.assertIsInstance(fault, Fault)
        self.assertEqual((fault.stage, fault.command, fault.line, fault.rule), (12, 'mint', 4294967296, 'TR1'))
        self.assertEqual(fault.text, 'text')
        self.assertEqual(fault.explanation, CODES['TR1'])
        self.assertEqual(str(fault), 'stage 12 (mint), line 4294967296: TR1. ' + CODES['TR1'])

    def test_a_plan_is_refused(self):
        fault = error_of('humpipe: plan line 2, word 0: N11', '')
        self.assertIsInstance(fault, PlanFault)
        self.assertEqual((fault.line, fault.word, fault.rule, fault.text), (2, 0, 'N11', ''))
        self.assertEqual(fault.explanation, CODES['N11'])

    def test_anything_else(self):
        for told in ('stage 1 (read): cannot open', 'write failed', 'out of memory', 'bundle too large', 'ended with status -9'):
            error = error_of(told, 'a')
            self.assertIs(type(error), RunError)
            self.assertEqual((error.message, error.text, str(error)), (told, 'a', told))

    def test_faults_go_between_processes(self):
        for told in ('stage 1 (read), line 3: P2', 'plan line 1, word 4: N9', 'write failed'):
            error = error_of(told, 'what was settled')
            again = pickle.loads(pickle.dumps(error))
            self.assertEqual((type(again), vars(again)), (type(error), vars(error)))

    def test_every_code_has_two_sentences_at_least(self):
        for code, text in CODES.items():
            self.assertRegex(text, r'^.+\. .+\.$', code)
