#!/usr/bin/env python3
"""Measures the commands of `n2_tool` that read or write long texts, and `bench`, over files that it makes.

Run by hand from anywhere, with nothing else at work on the machine, once the program is built:

    bench/texts.py

Each row is the best of five runs. `step`, `replay` and `flat` make the same 1,000,000 turns of one core; the journal of the
second loop has an entry for each third turn. `asm` and `dis` read a source of one mebibyte and the image that it becomes.
`bench N` is the workload of N critical sections for each of four cores.
"""
import os
import re
import subprocess
import tempfile
import time

ROOT = os.path.dirname(os.path.dirname(os.path.abspath(__file__)))
PROGRAM = os.path.join(ROOT, "crates", "n2_tool", "out", "n2_tool")
TURNS = 1_000_000

LOOPS = {
    "arithmetic": ".text 0\nagain:\n addi r2, r2, 3\n mul r3, r2, r2\n xor r4, r3, r2\n br again\n",
    "polls of a device": ".text 0\n movia r8, 0x10000\nagain:\n ldwio r2, 4(r8)\n andi r2, r2, 1\n br again\n",
}
BOARD = f"""turns = {TURNS}
journal = 1000000
memory = [{{base = 0, size = 0x10000}}]
core = [{{cpuid = 0, image = "image.elf"}}]
uart = [{{name = "u0", base = 0x10000}}]
"""


def timed(words, out=subprocess.DEVNULL):
    """The best of five runs, in seconds, and the peak memory in KiB."""
    best, peak = None, 0
    for _ in range(5):
        begun = time.perf_counter()
        child = subprocess.Popen([PROGRAM, *words], stdout=out)
        _, status, usage = os.wait4(child.pid, 0)
        seconds = time.perf_counter() - begun
        if os.waitstatus_to_exitcode(status) not in (0, 2):
            raise SystemExit(f"{words}: status {os.waitstatus_to_exitcode(status)}")
        best = seconds if best is None else min(best, seconds)
        peak = max(peak, usage.ru_maxrss)
    return best, peak


def assembled(source, name):
    with open("source.s", "w") as file:
        file.write(source)
    with open(name, "wb") as file:
        subprocess.run([PROGRAM, "asm", "source.s"], stdout=file, check=True)


def runs():
    print(f"{'loop':20} {'command':8} {'ns a turn':>10} {'entries':>8} {'journal MB':>11} {'peak MiB':>9}")
    with open("board.toml", "w") as file:
        file.write(BOARD)
    for name, source in LOOPS.items():
        assembled(source, "image.elf")
        for words in (["step", "board.toml", "rr:1000"], ["replay", "board.toml", "journal.txt"], ["flat", "board.toml", "journal.txt"]):
            seconds, peak = timed(words)
            with open("journal.txt", "rb") as file:
                text = file.read()
            entries = text.count(b"\n") - 3
            print(f"{name:20} {words[0]:8} {1e9 * seconds / TURNS:10.1f} {entries:8} {len(text) / 1e6:11.1f} {peak / 1024:9.0f}")


def texts():
    row = "    addi r2, r2, 1\n"
    count = ((1 << 20) - 8) // len(row)
    assembled(".text 0\n" + row * count, "image.elf")
    print(f"{'command':20} {'rows':>8} {'seconds':>8} {'rows/s':>10} {'peak MiB':>9}")
    for words in (["asm", "source.s"], ["dis", "image.elf"]):
        seconds, peak = timed(words)
        print(f"{words[0]:20} {count:8} {seconds:8.3f} {count / seconds:10.0f} {peak / 1024:9.0f}")


def workloads():
    print(f"{'command':20} {'turns':>8} {'seconds':>8} {'ns a turn':>10} {'peak MiB':>9}")
    for n in ("1", "100", "400"):
        report = subprocess.run([PROGRAM, "bench", n], stdout=subprocess.PIPE, check=True).stdout
        turns = sum(int(it) for it in re.findall(rb"^end \d+ \w+ (\d+)$", report, re.M))
        seconds, peak = timed(["bench", n])
        print(f"{'bench ' + n:20} {turns:8} {seconds:8.3f} {1e9 * seconds / turns:10.1f} {peak / 1024:9.0f}")


def main():
    with tempfile.TemporaryDirectory() as folder:
        os.chdir(folder)
        runs()
        texts()
        workloads()
        os.chdir(ROOT)


if __name__ == "__main__":
    main()
