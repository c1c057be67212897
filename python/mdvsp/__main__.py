"""Runs `mdvsp-plan` as `python3 -m mdvsp`."""

import sys

from .command import main

sys.exit(main())
