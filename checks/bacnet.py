"""Octets of BACnet/IP for the checks and benches: those of tools/alarm_tools/octets.py, where they stand once."""
import pathlib
import sys

sys.path.insert(0, str(pathlib.Path(__file__).resolve().parent.parent / "tools"))
from alarm_tools.octets import *
