"""Tests of legosdn and of session.py. What is expected is written out by hand, from OpenFlow 1.0.0 and from docs/."""

import os
import sys

PYTHON = os.path.dirname(os.path.dirname(os.path.abspath(__file__)))
TOP = os.path.dirname(os.path.dirname(PYTHON))
sys.path.insert(0, PYTHON)
