"""Runs agc-web as `python3 -m agc_web`."""

import sys

from agc_web.command import main

sys.exit(main())
