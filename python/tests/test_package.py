"""What the package says of itself agrees with the rest of the repository."""
import ast
import glob
import os
import subprocess
import sys
import unittest

import humpipe

HERE = os.path.dirname(os.path.abspath(__file__))
PACKAGE = os.path.dirname(HERE)


REPOSITORY = os.path.dirname(PACKAGE)
IS_REPOSITORY = os.path.exists(os.path.join(REPOSITORY, 'packaging', 'made.py'))


class Package(unittest.TestCase):
    @unittest.skipUnless(IS_REPOSITORY, 'not in the repository')
    def test_codes_are_those_of_the_page(self):
        told = subprocess.run([sys.executable, os.path.join(PACKAGE, 'make_codes.py'), '--check'], stderr=subprocess.PIPE)
        self.assertEqual(told.returncode, 0, told.stderr.decode())

    @unittest.skipUnless(os.path.exists(os.path.join(REPOSITORY, 'VERSION')), 'no VERSION')
    def test_version_is_the_repository_s(self):
        with open(os.path.join(PACKAGE, '..', 'VERSION'), encoding='utf-8') as file:
            self.assertEqual(humpipe.__version__, file.read().strip())

    def test_sources_are_python_3_8(self):
        sources = glob.glob(os.path.join(PACKAGE, 'humpipe', '*.py'))
        self.assertTrue(sources)
        for source in sources:
            with open(source, encoding='utf-8') as file:
                ast.parse(file.read(), source, feature_version=(3, 8))

    def test_all_names_are_there_and_have_docstrings(self):
        for name in humpipe.__all__:
            self.assertTrue(getattr(humpipe, name).__doc__, name)
