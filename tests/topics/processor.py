"""How much of a processor a process takes, on Linux."""
import os
import time


def seconds_of(process: int) -> float:
    """How long processors worked for a process until now."""
    with open(f"/proc/{process}/stat", encoding="utf-8", errors="replace") as file:
        fields = file.read().rpartition(")")[2].split()
    return (int(fields[11]) + int(fields[12])) / os.sysconf("SC_CLK_TCK")


def least_share(process: int, most: float, window: float = 5, windows: int = 12) -> float:
    """The share of a processor that a process takes once it has done what it begins with, which takes a busy machine long: the least of
    several windows, each of `window` seconds. The first that is below `most` is the last."""
    shares = [1.0]
    while len(shares) <= windows and min(shares) >= most:
        used, began = seconds_of(process), time.monotonic()
        time.sleep(window)
        shares.append((seconds_of(process) - used) / (time.monotonic() - began))
    return min(shares)
