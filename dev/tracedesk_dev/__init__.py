"""What the tools and tests of dev/ share. Importing it lets them import the packages of ops/ and of
clients/python too.
"""
import pathlib
import sys

ROOT = pathlib.Path(__file__).resolve().parents[2]
for folder in ("ops", "clients/python"):
    if str(ROOT / folder) not in sys.path:
        sys.path.append(str(ROOT / folder))
