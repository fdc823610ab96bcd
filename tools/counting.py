"""What a program costs: its processor time, and its instructions, which valgrind counts where it is there."""
import os
import pathlib
import re
import resource
import shutil
import subprocess
import tempfile

SECONDS = 60
CALLGRIND = ["valgrind", "--tool=callgrind", f"--callgrind-out-file={os.devnull}"]


def spent():
    """The processor time of the programs that have ended, in seconds."""
    usage = resource.getrusage(resource.RUSAGE_CHILDREN)
    return usage.ru_utime + usage.ru_stime


def run(words):
    return subprocess.run(words, capture_output=True, timeout=SECONDS, check=True, text=True).stdout.strip()


def time_of(words):
    """The processor time of a program, the least of three, and what it printed."""
    times = []
    for _ in range(3):
        before = spent()
        said = run(words)
        times.append(spent() - before)
    return min(times), said


def instructions_of(do, words):
    """The instructions that valgrind counts in a program that is run by this, or nothing where there is no valgrind."""
    if not shutil.which("valgrind"):
        return None
    with tempfile.TemporaryDirectory() as folder:
        log = pathlib.Path(folder) / "log"
        do([*CALLGRIND, f"--log-file={log}", *words])
        found = re.search(r"Collected : (\d+)", log.read_text())
        return int(found.group(1)) if found else None


def functions_of(do):
    """The instructions of each function itself, in a program that is run by this with words before its own."""
    with tempfile.TemporaryDirectory() as folder:
        out = pathlib.Path(folder) / "out"
        do(["valgrind", "--tool=callgrind", f"--callgrind-out-file={out}", f"--log-file={folder}/log"])
        return read_callgrind(out.read_text().splitlines())


def read_callgrind(lines):
    """The own costs in the text that callgrind writes. A name is told in full the first time, and then by its number;
    the line behind `calls=` has what a call took, which isn't the caller's own."""
    names, costs, name, of_call = {}, {}, None, False
    for line in lines:
        found = re.match(r"(c?fn)=\((\d+)\)(?: (.*))?$", line)
        if found:
            names[found[2]] = found[3] or names[found[2]]
            name = names[found[2]] if found[1] == "fn" else name
        elif line.startswith("calls="):
            of_call = True
        elif re.match(r"[-+*\d]", line):
            if name and not of_call:
                costs[name] = costs.get(name, 0) + int(line.split()[-1])
            of_call = False
    return costs


def total_of(costs):
    return sum(costs.values())


def print_row(job, size, time, count, last, said):
    """Prints a row, and answers the size and its cost, which is compared with the last one."""
    cost = count or time
    ratios = f"{cost / last[1]:9.2f} {size / last[0]:6.2f}" if last and last[1] else f"{'':16}"
    print(f"{job:<11} {size:>9} {time:8.3f} {count or '':>13} {ratios}  {said}", flush=True)
    return size, cost
