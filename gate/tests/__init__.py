"""Tests of the gate. One module, class or case alone: python3 -m unittest gate.tests.steps[.Check[.test_ends]], at the top."""

import sys
from pathlib import Path

sys.dont_write_bytecode = True
sys.path.insert(0, str(Path(__file__).resolve().parents[1]))
