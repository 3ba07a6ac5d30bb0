"""Counts the cases of a test program: those that fail are printed, and the last line is `N passed, M failed`."""

import pathlib

ROOT = pathlib.Path(__file__).resolve().parent.parent
counts = {"passed": 0, "failed": 0}


def case(name, right, told=""):
    counts["passed" if right else "failed"] += 1
    if not right:
        print(f"failed: {name}" + (f": {told}" if told else ""))


def run(*groups):
    """Runs the groups, and answers the status."""
    for group in groups:
        group()
    print(f"{counts['passed']} passed, {counts['failed']} failed")
    return 1 if counts["failed"] else 0
