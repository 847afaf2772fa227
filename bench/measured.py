"""What bench/run wrote: which file is the newest, and what it says."""
import csv
import os
import sys

HERE = os.path.dirname(os.path.abspath(__file__))
RESULTS = os.path.join(HERE, "results")


def newest():
    """Returns the path of the last whole run; the names begin with its day and time."""
    names = os.listdir(RESULTS) if os.path.isdir(RESULTS) else []
    whole = [name for name in names if name.endswith(".csv") and not name.endswith("-quick.csv")]
    if not whole:
        sys.exit("there is no whole run in bench/results; bench/run makes one")
    return os.path.join(RESULTS, max(whole))


def read(path):
    """Returns what the file says of the run, and its lines."""
    with open(path, encoding="utf-8", newline="") as it:
        lines = it.read().splitlines()
    about = dict(line[2:].split(": ", 1) for line in lines if line.startswith("# "))
    rows = list(csv.DictReader(line for line in lines if not line.startswith("#")))
    for row in rows:
        row["threads"] = int(row["threads"])
        for name in ("value", "low", "high"):
            row[name] = float(row[name])
    return about, rows


def different(rows, name):
    return list(dict.fromkeys(row[name] for row in rows))
