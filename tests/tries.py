"""Cases of a program that is run by `rt try`, with no proof."""
import os
import re
import subprocess


def write(folder, name, content):
    with open(os.path.join(folder, name), "w", encoding="latin-1", newline="") as file:
        file.write(content)


def ends(crate, folder):
    """Runs the program of a crate on the cases of a folder. Of each case, by its name, the status and
    both outputs; what the program writes to standard error stands before the line of its case.
    """
    pipes = {"stdout": subprocess.PIPE, "stderr": subprocess.PIPE, "encoding": "latin-1"}
    ended = subprocess.run(["rt", "try", "--cases", folder], cwd=crate, stdin=subprocess.DEVNULL, **pipes)
    outputs = dict(re.findall(r"^== (\w+)\n((?:(?!== \w+\n).*\n)*)", ended.stdout, re.M))
    found = {}
    before = 0
    for line in re.finditer(r"^case=(\w+) run=(\S+)(?: status=(\d+))?.*\n", ended.stderr, re.M):
        name, run, status = line.groups()
        said = ended.stderr[before:line.start()]
        before = line.end()
        found[name] = (int(status) if run == "ended" else run, outputs.get(name, ""), said)
    if not found:
        raise SystemExit("rt try ran nothing:\n" + ended.stderr)
    return found
