"""Where things are in the repository, and the folders of modules that other programs of it have, too."""
import os
import sys

TESTS = os.path.dirname(os.path.dirname(os.path.abspath(__file__)))
TOP = os.path.dirname(TESTS)
PROGRAM = f"{TOP}/crates/dpbn/out/dpbn"
AUDITS = f"{TOP}/crates/dpbr/out/dpbr"

for folder in (TESTS, f"{TOP}/bench"):
    if folder not in sys.path:
        sys.path.insert(0, folder)
