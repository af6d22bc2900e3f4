#!/usr/bin/env python3
"""The session tool where the library is not installed; where it is, `python3 -m legosdn.session` is the same."""

import sys

from legosdn.session import main

if __name__ == "__main__":
    sys.exit(main(sys.argv[1:]))
