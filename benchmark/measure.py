#!/usr/bin/env python3
"""Runs two programs on files from standard input, in turn, and prints the least times, what a voucher takes, their ratio and
the peak memory of each as a table.

    measure.py ROUNDS PROGRAM OTHER FILE..
"""
import os, subprocess, sys, time


def run(program, path):
    """The line, the seconds from start to end, and those of the processor."""
    with open(path, "rb") as file:
        began = time.perf_counter()
        process = subprocess.Popen([program], stdin=file, stdout=subprocess.PIPE)
        line = process.stdout.read().decode(errors="replace").strip()
        _, status, usage = os.wait4(process.pid, 0)
        seconds = time.perf_counter() - began
    process.returncode = os.waitstatus_to_exitcode(status)
    return line, seconds, usage.ru_utime + usage.ru_stime


def peak(program, path):
    """In MB. A process of its own asks for it: a child starts with the peak of the process that made it."""
    with open(path, "rb") as file:
        said = subprocess.run(["/usr/bin/time", "-f", "%M", program], stdin=file, stdout=subprocess.DEVNULL, stderr=subprocess.PIPE)
    return int(said.stderr.split()[-1]) / 1024


def per_voucher(line, seconds):
    """Nanoseconds for each of the vouchers that a line counts."""
    counted = line.split()[-1]
    return f"{1e9 * seconds / int(counted):.0f}" if counted.isdigit() and int(counted) else ""


def row(rounds, programs, path):
    results = [[run(program, path) for program in programs] for _ in range(rounds)]
    lines = {line for pair in results for line, _, _ in pair}
    wall, processor = ([min(pair[n][which] for pair in results) for n in (0, 1)] for which in (1, 2))
    size = os.path.getsize(path) / 1024 / 1024
    line = lines.pop() if len(lines) == 1 else f"DIFFERENT: {lines}"
    cells = [os.path.basename(path), f"{size:.1f}", line]
    cells += [f"{wall[n]:.3f} ({processor[n]:.3f})" for n in (0, 1)]
    cells += [per_voucher(line, processor[n]) for n in (0, 1)]
    cells += [f"{processor[0] / max(processor[1], 0.001):.2f}"] + [f"{peak(program, path):.1f}" for program in programs]
    return "| " + " | ".join(cells) + " |"


def main():
    rounds, programs, paths = int(sys.argv[1]), sys.argv[2:4], sys.argv[4:]
    print(f"least of {rounds} rounds, {os.cpu_count()} processors, load {os.getloadavg()[0]:.1f} when begun; seconds (of the processor)\n")
    print("| docket | MB | line | program | other | ns | other ns | ratio | program MB | other MB |")
    print("|---|---|---|---|---|---|---|---|---|---|")
    for path in paths:
        print(row(rounds, programs, path), flush=True)


main()
