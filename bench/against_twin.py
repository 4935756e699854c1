"""Measures a command of `bsp_office` against a plain Rust twin, md5sum and wc -l, on the same two files.

Needs rustc and GNU time, and builds the program where it is not built. Runs the four in turn on a file and on
one of a tenth of its size, with the output thrown away. Prints a table for README.md: the best time and
processor time of each, the program's as ratios to them, and the largest memory of each as a ratio to the
file. The reports of program and twin are compared first.
"""
import filecmp
import os
import pathlib
import subprocess
import sys
import tempfile
import time

TOP = pathlib.Path(__file__).resolve().parents[1]


def seconds(command):
    """The time of a run, and its processor time."""
    begun = time.perf_counter()
    run = subprocess.Popen(command, stdin=subprocess.DEVNULL, stdout=subprocess.DEVNULL)
    _, status, used = os.wait4(run.pid, 0)
    ended = time.perf_counter()
    run.returncode = os.waitstatus_to_exitcode(status)
    if run.returncode != 0:
        sys.exit(f"{command[0]} ended with status {run.returncode}")
    return ended - begun, used.ru_utime + used.ru_stime


def peak(command):
    """The largest memory of a command, in bytes."""
    timed = ["/usr/bin/time", "-f", "%M", *command]
    run = subprocess.run(timed, stdout=subprocess.DEVNULL, stderr=subprocess.PIPE, check=True)
    return int(run.stderr) * 1024


def interleaved(commands, rounds):
    """The best time of each command, and its best processor time."""
    times = {name: [] for name in commands}
    for _ in range(rounds):
        for name, command in commands.items():
            times[name].append(seconds(command))
    return {name: [min(each) for each in zip(*got)] for name, got in times.items()}


def compare_reports(program, twin, path):
    texts = [path + ".program", path + ".twin"]
    for command, text in zip((program, twin), texts):
        with open(text, "wb") as out:
            subprocess.run([*command, path], stdout=out, check=True)
    if not filecmp.cmp(*texts, shallow=False):
        sys.exit("the reports of the program and of the twin differ")


def machine():
    lines = pathlib.Path("/proc/cpuinfo").read_text().splitlines()
    model = next((line.split(":", 1)[1].strip() for line in lines if line.startswith("model name")), "?")
    today, load = time.strftime("%Y-%m-%d"), os.getloadavg()[0]
    return f"{model}, {os.cpu_count()} processors, load {load:.1f}, {today}"


def measure(program, twin, path, rounds):
    """Prints the table of a file, and gives the program's best time."""
    size = os.path.getsize(path)
    compare_reports(program, twin, path)
    ours = f"`bsp_office {program[1]}`"
    commands = {
        ours: [*program, path],
        "plain Rust twin": [*twin, path],
        "`md5sum`": ["md5sum", path],
        "`wc -l`": ["wc", "-l", path],
    }
    best = interleaved(commands, rounds)
    our_time, our_used = best[ours]
    print(f"\n{size} bytes, best of {rounds}\n")
    print(f"| | Time | `{program[1]}` as a ratio to it | Processor time | Ratio | Peak memory, of the file |")
    print("|---|---|---|---|---|---|")
    for name, command in commands.items():
        memory = peak(command)
        taken, used = best[name]
        print(
            f"| {name} | {taken:.3f} s | {our_time / taken:.2f} | {used:.3f} s | {our_used / used:.2f} |"
            f" {memory / size:.2f} |"
        )
    return our_time, our_used


def run(command, twin_source, write, most, count, rounds=7):
    """Measures a command on a file that `write(count, path)` writes, where count is at most `most`."""
    count = min(count, most)
    with tempfile.TemporaryDirectory() as work:
        twin = [os.path.join(work, "plain")]
        subprocess.run(["rustc", "-O", "-o", twin[0], twin_source], check=True)
        subprocess.run([TOP / "bsp_office", "--help"], stdout=subprocess.DEVNULL, check=True)
        program = [str(TOP / "crates/bsp_office/out/bsp_office"), command]
        print(machine())
        times = []
        for each in (count // 10, count):
            path = os.path.join(work, f"{each}.input")
            write(each, path)
            times.append(measure(program, twin, path, rounds))
        growth, growth_used = (large / small for small, large in zip(*times))
        print(f"\nten times the file: {growth:.2f} times the time, {growth_used:.2f} the processor time")
