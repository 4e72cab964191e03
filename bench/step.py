#!/usr/bin/env python3
"""Measures `n2_tool step`: seconds, turns per second and peak memory, over boards and sources that it makes.

Run by hand from anywhere, with nothing else at work on the machine, once the program is built:

    bench/step.py

Each row is the best of five runs of 1,000,000 turns in all. Beside it, in the same run, stands `plain` on the same
image for 1,000,000 acts, where the plain board has what the image uses. The time of a run with one turn, which is
the program's start, the reading of board and image and the taking of memory, is taken off both.
"""
import os
import subprocess
import tempfile
import time

ROOT = os.path.dirname(os.path.dirname(os.path.abspath(__file__)))
PROGRAM = os.path.join(ROOT, "crates", "n2_tool", "out", "n2_tool")
TURNS = 1_000_000

ARITHMETIC = """
    addi r2, r2, 3
    mul r3, r2, r2
    xor r4, r3, r2
    sub r5, r4, r3
    sll r6, r5, r2
    cmplt r7, r6, r5
"""
MEMORY = """
    ldw r2, 0(r8)
    addi r2, r2, 1
    stw r2, 0(r8)
    ldbu r3, 5(r8)
    sth r3, 6(r8)
"""
# a load of the next line of 512 bytes' distance, around 16 KiB: each misses in a cache of 512 bytes
SWEEP = """
    ldw r2, 0(r9)
    addi r9, r9, 512
    andi r9, r9, 0x3fff
    or r9, r9, r8
"""


def loop(head, body):
    return f"{head}\nagain:\n{body}\n    br again\n"


SOURCES = {
    "arithmetic": loop(".text 0", ARITHMETIC),
    "loads and stores": loop(".text 0\n movui r8, 0x8000", MEMORY),
    "calls": ".text 0\nagain:\n call on\n br again\n.text 0x100\non:\n ret\n",
    "loads that miss": loop(".text 0\n movui r8, 0x8000\n mov r9, r8", SWEEP),
    "polls a device": loop(".text 0\n movia r8, 0x10000", "    ldwio r2, 4(r8)\n    andi r2, r2, 1"),
    "a mutex line": loop(".text 0\n movia r10, 0x20000\n movi r11, 1\n stwio r11, 0(r10)\n movui r8, 0xe000", MEMORY),
}


def board(cores, turns, dcache):
    names = ", ".join(
        f'{{cpuid = {k}, image = "image{k}.elf", exception = {0x1000 * k + 0x20}, dcache = {dcache}}}' for k in range(cores)
    )
    return f"""turns = {turns}
journal = 1000000
memory = [{{base = 0, size = 0x10000}}]
core = [{names}]
uart = [{{name = "u0", base = 0x10000}}]
mutex = [{{name = "m0", base = 0x20000}}]
region = [
    {{name = "own", base = 0x8000, size = 0x4000, class = "private", core = 0}},
    {{name = "shared", base = 0xe000, size = 0x100, class = "mutex", mutex = "m0"}},
]
"""


def timed(folder, words):
    """The best of five runs, in seconds, and the peak memory in KiB."""
    best, peak = None, 0
    for _ in range(5):
        begun = time.perf_counter()
        child = subprocess.Popen([PROGRAM, *words], cwd=folder, stdout=subprocess.DEVNULL)
        _, status, usage = os.wait4(child.pid, 0)
        seconds = time.perf_counter() - begun
        if os.waitstatus_to_exitcode(status) not in (0, 2):
            raise SystemExit(f"{words}: status {os.waitstatus_to_exitcode(status)}")
        best = seconds if best is None else min(best, seconds)
        peak = max(peak, usage.ru_maxrss)
    return best, peak


def assemble(folder, k, source):
    with open(os.path.join(folder, "source.s"), "w") as file:
        file.write(source)
    with open(os.path.join(folder, f"image{k}.elf"), "wb") as file:
        subprocess.run([PROGRAM, "asm", "source.s"], cwd=folder, stdout=file, check=True)


def stepped(folder, cores, order, dcache):
    seconds = []
    for turns in (TURNS // cores, 1):
        with open(os.path.join(folder, "board.toml"), "w") as file:
            file.write(board(cores, turns, dcache))
        seconds.append(timed(folder, ["step", "board.toml", order]))
    return seconds[0][0] - seconds[1][0], seconds[0][1]


def main():
    print(f"{'loop':28} {'ns a turn':>10} {'turns/s':>10} {'peak KiB':>9} {'ns an act of plain':>19} {'ratio':>6}")
    with tempfile.TemporaryDirectory() as folder:
        for name, source in SOURCES.items():
            assemble(folder, 0, source)
            seconds, peak = stepped(folder, 1, "rr:1000", 512 if "miss" in name else 2048)
            row = f"{name:28} {1e9 * seconds / TURNS:10.1f} {TURNS / seconds:10.0f} {peak:9}"
            if "mutex" not in name:
                plain = timed(folder, ["plain", "image0.elf", str(TURNS)])[0] - timed(folder, ["plain", "image0.elf", "1"])[0]
                row += f" {1e9 * plain / TURNS:19.1f} {seconds / plain:6.2f}"
            print(row)
        for k in range(4):
            assemble(folder, k, loop(f".text {0x1000 * k}", ARITHMETIC))
        for order in ("rr:1", "rr:1000"):
            seconds, peak = stepped(folder, 4, order, 2048)
            print(f"{'four cores, ' + order:28} {1e9 * seconds / TURNS:10.1f} {TURNS / seconds:10.0f} {peak:9}")


main()
