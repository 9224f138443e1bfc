"""Unit tests of tools/dpbn_tools and tests/soak_parts, by pytest: `pytest tests/unit`."""
import os
import sys

TOP = os.path.dirname(os.path.dirname(os.path.dirname(os.path.abspath(__file__))))
sys.path[:0] = [f"{TOP}/tools", f"{TOP}/tests", f"{TOP}/bench"]
sys.dont_write_bytecode = True
