"""Runs pywatchman's own tests of its module `bser` with this package in its place.

Argument: python/tests/tests.py of Watchman's sources.
"""

import importlib.util
import unittest

# these lines are those of the package's page
import sys
import pywatchman
import kuvtsada_bser
sys.modules["pywatchman.bser"] = kuvtsada_bser
pywatchman.bser = kuvtsada_bser

spec = importlib.util.spec_from_file_location("tests", sys.argv[1])
tests = importlib.util.module_from_spec(spec)
spec.loader.exec_module(tests)
suite = unittest.defaultTestLoader.loadTestsFromTestCase(tests.TestBSERDumpBser)
result = unittest.TextTestRunner(stream=sys.stdout).run(suite)
print(f"{result.testsRun} tests, {len(result.failures) + len(result.errors)} failed")
sys.exit(0 if result.wasSuccessful() and result.testsRun > 0 else 1)
