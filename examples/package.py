"""Puts the repository's Python package on the path: the scripts here import this module first."""

import pathlib
import sys

sys.path.insert(0, str(pathlib.Path(__file__).resolve().parent.parent / "python" / "src"))
