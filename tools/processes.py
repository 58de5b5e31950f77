"""The processes that this one started, and those that they started in turn."""

import os
import pathlib


def read(path):
    """The text of a file of a process. It is empty if the process has ended."""
    try:
        return pathlib.Path(path).read_bytes().decode(errors="replace")
    except OSError:
        return ""


def started_from_here():
    """The words of each such process, and the numbers that the system has of it, from its state on. The key is its number."""
    stats = {}
    for number in filter(str.isdigit, os.listdir("/proc")):
        stat = read(f"/proc/{number}/stat").rpartition(")")[2].split()
        if len(stat) > 14:
            stats[number] = stat
    own, found = str(os.getpid()), {}
    for number, stat in stats.items():
        above = stat[1]
        while above in stats and above != own:
            above = stats[above][1]
        if above == own:
            found[number] = (read(f"/proc/{number}/cmdline").split("\0"), stat)
    return found
