#!/usr/bin/env python3
"""`times.py PROGRAM ROUNDS`: what the turn adds to a call of a store in memory, by the program of `program.txt`. Of each run the least of
ROUNDS, less one that makes no call; times are those of the wall, and beside them processor time."""
import resource
import subprocess
import sys
import time

# A disk in memory keeps what each call made of it, so many pushes take longer each.
CALLS = {"h": ("held", 200_000), "p": ("a push", 4_000), "r": ("a page read", 100_000)}
THREADS = [1, 2, 4, 8]
PUSHES = 8  # of the ninth thread, as the program has it
ASKS = [1_000, 20_000, 100_000]


def run(program, letter, threads, calls):
    """The wall and the processor time of one run."""
    given = letter.encode() + bytes([threads]) + calls.to_bytes(4, "little")
    before = resource.getrusage(resource.RUSAGE_CHILDREN)
    begin = time.perf_counter()
    subprocess.run([program], input=given, check=True)
    wall = time.perf_counter() - begin
    after = resource.getrusage(resource.RUSAGE_CHILDREN)
    return wall, after.ru_utime + after.ru_stime - before.ru_utime - before.ru_stime


def least(program, rounds, letter, threads, calls):
    """The least of both times over some runs."""
    runs = [run(program, letter, threads, calls) for _ in range(rounds)]
    return [min(times) for times in zip(*runs)]


def each(program, rounds, letter, threads, calls):
    """Microseconds a call, of which all threads together make so many."""
    share = calls // max(threads, 1)
    full = least(program, rounds, letter, threads, share)
    none = least(program, rounds, letter, threads, 0)
    return [1e6 * (a - b) / (share * max(threads, 1)) for a, b in zip(full, none)]


def main():
    program, rounds = sys.argv[1], int(sys.argv[2])
    for letter, (name, calls) in CALLS.items():
        core, spent = each(program, rounds, letter, 0, calls)
        print(f"{name}, microseconds: of the core {core:.3f} (processor {spent:.3f})")
        for threads in THREADS:
            wall, used = each(program, rounds, letter, threads, calls)
            print(f"  {threads} seats: {wall:.3f} (processor {used:.3f}), the turn adds {wall - core:.3f} (processor {used - spent:.3f})")
    # Nine threads: one makes eight pushes of 16,384 spans, and eight ask meanwhile. A push keeps the turn for long, and all eight wait for it.
    # If what waits sleeps, both together take the processor time of the two apart.
    alone, spent = least(program, rounds, "b", 0, PUSHES)
    print(f"eight large pushes: {alone:.3f} s (processor {spent:.3f} s)")
    for calls in ASKS:
        asking, used = least(program, rounds, "h", 8, calls)
        wall, both = least(program, rounds, "h", 9, calls)
        apart = spent + used
        print(f"  beside eight threads that ask {calls} times each ({asking:.3f} s, processor {used:.3f} s): {wall:.3f} s, processor {both:.3f} s, "
              f"{both - apart:+.3f} s to both apart")


main()
