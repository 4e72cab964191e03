#!/usr/bin/env python3
"""Measures `n2_tool plain`: seconds, acts per second and peak memory, over images that it makes.

Run by hand from anywhere, with nothing else at work on the machine:

    bin/n2_tool plain examples/hi/p2.bin 100   # builds the program where it is missing
    bench/plain.py

Each row is the best of five runs. The rows without a loop show that time is linear in the acts made
and not in STEPS; the loops show acts per second for arithmetic, memory and branches. The files show that
an image is loaded in time linear in its bytes, up to 16 MiB, and in its segments, up to the 65,535 that
ELF32 can have: a raw one, which is refused since it is longer than the memory, an ELF file of which one
small segment is loaded, and ELF files of many segments. Peak memory is never below that of the Python
process that starts the program, which is about 11 MiB.

The rows of stores are of one own line and of 1,000, none of which is ever cleaned: time is linear in them, and
so is memory, since the flat machine keeps every past event; the whole peak by the stores bounds the bytes a
store, the list's spare room counted.

    bench/plain.py OLD    # OLD is another build of the program, beside which the loops run by turns
"""
import os
import struct
import sys
import tempfile
import time

ROOT = os.path.dirname(os.path.dirname(os.path.abspath(__file__)))
PROGRAM = os.path.join(ROOT, "crates", "n2_tool", "out", "n2_tool")
BREAK = 0x003DA03A


def i_type(op, a, b, imm):
    return a << 27 | b << 22 | (imm & 0xFFFF) << 6 | op


def r_type(opx, a, b, c):
    return a << 27 | b << 22 | c << 17 | opx << 11 | 0x3A


def addi(b, a, imm):
    return i_type(0x04, a, b, imm)


def straight(acts):
    """Additions without a loop, and a break."""
    return [addi(2, 2, 1)] * (acts - 1) + [BREAK]


def looped(body):
    """A body that runs forever."""
    return body + [i_type(0x06, 0, 0, -4 * (len(body) + 1))]


def arithmetic():
    return looped([
        addi(2, 2, 3),
        r_type(0x27, 2, 2, 3),  # mul r3, r2, r2
        r_type(0x1E, 3, 2, 4),  # xor r4, r3, r2
        r_type(0x39, 4, 3, 5),  # sub r5, r4, r3
        r_type(0x13, 5, 2, 6),  # sll r6, r5, r2
        r_type(0x10, 6, 5, 7),  # cmplt r7, r6, r5
    ])


def memory():
    body = [
        i_type(0x17, 8, 2, 0),  # ldw r2, 0(r8)
        addi(2, 2, 1),
        i_type(0x15, 8, 2, 0),  # stw r2, 0(r8)
        i_type(0x03, 8, 3, 5),  # ldbu r3, 5(r8)
        i_type(0x0D, 8, 3, 6),  # sth r3, 6(r8)
    ]
    return [i_type(0x14, 0, 8, 0x8000)] + looped(body)


def branches():
    return looped([
        addi(2, 2, 1),
        i_type(0x1E, 2, 0, 0),  # bne r2, r0, on
        i_type(0x16, 2, 0, 0),  # blt r2, r0, on
        i_type(0x36, 0, 2, 0),  # bltu r0, r2, on
    ])


def stores(lines):
    """8,000 stores in a loop, to so many lines by turns."""
    body = [i_type(0x15, 8, 2, 32 * (i % lines)) for i in range(8000)]  # stw r2, 32 * n(r8)
    return [i_type(0x14, 0, 8, 0x8000)] + looped(body)


def write_raw(path, mib):
    """A raw file of zeros."""
    with open(path, "wb") as file:
        file.truncate(mib << 20)


def write_elf(path, count, padding):
    """An ELF file of `count` segments of one word each, the first a break at the entry, with so many
    bytes that are not loaded before the words."""
    header = struct.pack("<HHIIIIIHHHHHH", 2, 113, 1, 0, 52, 0, 0, 52, 32, count, 0, 0, 0)
    with open(path, "wb") as file:
        file.write(b"\x7fELF" + bytes([1, 1, 1]) + bytes(9) + header)
        for i in range(count):
            at, offset = 4 * (i % 16384), 52 + 32 * count + padding + 4 * i
            file.write(struct.pack("<IIIIIIII", 1, offset, at, at, 4, 4, 5, 4))
        file.seek(padding, os.SEEK_CUR)
        for i in range(count):
            file.write(struct.pack("<I", BREAK))


def files(path):
    """Names of files, and the status of `plain` with each; the file is written first."""
    for mib in (1, 2, 4, 8, 16):
        write_raw(path, mib)
        yield f"raw file, {mib} MiB", 5
    for mib in (1, 2, 4, 8, 15):
        write_elf(path, 1, mib << 20)
        yield f"ELF file, {mib} MiB", 0
    for count in (8192, 16384, 32768, 65535):
        write_elf(path, count, 0)
        yield f"ELF file, {count} segments", 0


def run_once(program, path, steps, expected):
    begun = time.perf_counter()
    child = os.fork()
    if child == 0:
        null = os.open(os.devnull, os.O_WRONLY)
        os.dup2(null, 1)
        os.execv(program, [program, "plain", path, str(steps)])
    _, status, usage = os.wait4(child, 0)
    seconds = time.perf_counter() - begun
    if os.waitstatus_to_exitcode(status) not in expected:
        raise SystemExit(f"{path}: status {os.waitstatus_to_exitcode(status)}")
    return seconds, usage.ru_maxrss, usage.ru_stime


def run(path, steps, expected=(0, 2)):
    runs = [run_once(PROGRAM, path, steps, expected) for _ in range(5)]
    return min(seconds for seconds, _, _ in runs), max(peak for _, peak, _ in runs)


def write_words(path, words):
    with open(path, "wb") as file:
        file.write(b"".join(struct.pack("<I", word) for word in words))


def print_stores(path):
    """Seconds, nanoseconds and a bound on the bytes a store, by how many lines and stores."""
    print(f"{'stores':32} {'seconds':>9} {'ns a store':>12} {'peak KiB':>9} {'at most, bytes':>15}")
    for lines in (1, 1000):
        write_words(path, stores(lines))
        for steps in (250_000, 500_000, 1_000_000):
            seconds, peak = run(path, steps)
            name = f"{lines} lines, {steps} stores"
            print(f"{name:32} {seconds:9.4f} {1e9 * seconds / steps:12.1f} {peak:9} {1024 * peak / steps:15.1f}")


def print_beside(old, path):
    """The loops by this program and by an old one, by turns: the best of 60 runs of each, and how many of these
    seconds are the system's, which hands out pages: its mean over the runs."""
    print(f"{'1000000 acts':32} {'seconds':>9} {'system':>9} {'old':>9} {'system':>9} {'ratio':>6}")
    for name, words in (("arithmetic", arithmetic()), ("memory", memory()), ("branches", branches())):
        write_words(path, words)
        both = [[run_once(program, path, 1_000_000, (2,)) for program in (PROGRAM, old)] for _ in range(60)]
        new, before = (min(pair[i][0] for pair in both) for i in (0, 1))
        pages, pages_before = (sum(pair[i][2] for pair in both) / len(both) for i in (0, 1))
        print(f"{name + ' loop':32} {new:9.4f} {pages:9.4f} {before:9.4f} {pages_before:9.4f} {new / before:6.2f}")


def main():
    rows = [(f"straight, {n} acts", straight(n), n, 1_000_000) for n in (1000, 4000, 8000)]
    for name, words in (("arithmetic", arithmetic()), ("memory", memory()), ("branches", branches())):
        rows += [(f"{name} loop, {n} acts", words, n, n) for n in (250_000, 500_000, 1_000_000)]
    with tempfile.TemporaryDirectory() as folder:
        print(f"{'image':32} {'seconds':>9} {'acts/s':>12} {'peak KiB':>9}")
        for name, words, acts, steps in rows:
            path = os.path.join(folder, "image.bin")
            write_words(path, words)
            seconds, peak = run(path, steps)
            print(f"{name:32} {seconds:9.4f} {acts / seconds:12.0f} {peak:9}")
        path = os.path.join(folder, "image.bin")
        print_stores(path)
        if len(sys.argv) > 1:
            print_beside(sys.argv[1], path)
        for name, status in files(path):
            seconds, peak = run(path, 1000, (status,))
            print(f"{name:32} {seconds:9.4f} {'':12} {peak:9}")


main()
