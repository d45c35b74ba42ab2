"""`python3 -m zorimarl.explore` is the command `zorimarl-explore`."""

import sys

from .command import run

sys.exit(run())
