"""Lets these examples find the library in the folder above, where it is not installed (`pip install sdk/python`)."""

import os
import sys

sys.path.insert(0, os.path.join(os.path.dirname(os.path.abspath(__file__)), ".."))
