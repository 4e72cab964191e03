#!/usr/bin/env python3
"""Measures the bus, the watch and journals: transfers, judgements, notes and entries per second, by `n2_rates`.

Run by hand from anywhere, with nothing else at work on the machine:

    (cd crates/n2_rates && rt run -- tick 1)   # builds the program where it is missing
    bench/rates.py

Each row is the best of five runs of N, less the best of five runs of none, which start the program and open
the bus or the watch. `back` and `write` store in a memory; `readdevice` reads the control register of a UART,
`writedevice` takes a snapshot of a timer; `tick` gives one tick to a timer that stands; the UART has two bytes
of input and the host takes none, so `receive` moves two bytes and `drain` none. `judge1000` judges stores to
1,000 lines that were touched, one after another, `note1000` notes loads and stores of them, and `pass1000` does
both, as a core does for each that hits its cache; the other numbers of lines are for the same.

A journal's entries are fills of the data cache, with eight words each, 91 bytes in the text: `writetext` is taken
less `entries`, which makes the journal alone, and `readtext` less `writetext`. Peak memory is that of the whole
program: with the journal that was made, with its text, and with the journal that was read.
"""
import os
import subprocess
import time

ROOT = os.path.dirname(os.path.dirname(os.path.abspath(__file__)))
PROGRAM = os.path.join(ROOT, "crates", "n2_rates", "out", "n2_rates")
KINDS = """fill back read write readdevice writedevice sample tick receive drain
judge1 judge1000 judge100000 note1 note1000 note100000 pass1 pass1000 pass100000""".split()
COUNT = 10_000_000
ENTRIES = 1_000_000


def best(kind, n):
    """The seconds of the best of five runs."""
    seconds = []
    for _ in range(5):
        begun = time.perf_counter()
        subprocess.run([PROGRAM, kind, str(n)], stdout=subprocess.DEVNULL, check=True)
        seconds.append(time.perf_counter() - begun)
    return min(seconds)


def main():
    print(f"{'kind':12} {'seconds':>9} {'of none':>9} {'per second':>12}")
    for kind in KINDS:
        seconds, none = best(kind, COUNT), best(kind, 0)
        print(f"{kind:12} {seconds:9.4f} {none:9.4f} {COUNT / (seconds - none):12.0f}")
    journals()


def peak(kind, n):
    """The peak memory of a run, in MiB."""
    child = subprocess.Popen([PROGRAM, kind, str(n)], stdout=subprocess.DEVNULL)
    return os.wait4(child.pid, 0)[2].ru_maxrss / 1024


def journals():
    text = subprocess.run([PROGRAM, "writetext", str(ENTRIES)], capture_output=True, check=True).stdout
    megabytes = int(text.split()[2], 16) / 1e6
    made, written, read = (best(kind, ENTRIES) for kind in ("entries", "writetext", "readtext"))
    print(f"a text of {ENTRIES} entries, {megabytes:.1f} MB: written in {written - made:.3f} s, read in {read - written:.3f} s")
    print(f"peak: {peak('entries', ENTRIES):.0f} MiB with the journal, {peak('writetext', ENTRIES):.0f} with its text, "
          f"{peak('readtext', ENTRIES):.0f} with the journal that is read")


main()
