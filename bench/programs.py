"""Programs on loopback, for what is measured and shown: what tests/running.py has of them."""
import pathlib
import sys

sys.path.append(str(pathlib.Path(__file__).resolve().parent.parent / "tests"))

# pylint: disable=wrong-import-position
from running import free_port, stop

__all__ = ["free_port", "stop"]
