"""Tests of the tools. One module, class or test alone: python3 -m unittest tools.tests.pictures[.Pictures[.test_legal]], at the top."""

import sys
from pathlib import Path

sys.dont_write_bytecode = True
sys.path.insert(0, str(Path(__file__).resolve().parents[1]))
