"""Makes the runs of the files `*.runs` here, or of those that are named: tests/messages.d/runs.py says what is in them.

    tries.py [FILE ..]
"""

from pathlib import Path

import runs

runs.check_files(Path(__file__).resolve().parent)
