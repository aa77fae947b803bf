"""Tells how many microseconds `htmd.convert` takes for a file at best."""

import sys
import time

import htmd

ROUNDS = 300


def main() -> None:
    with open(sys.argv[1], encoding="utf-8", newline="") as file:
        page = file.read()
    best = float("inf")
    for _ in range(ROUNDS):
        start = time.perf_counter()
        htmd.convert(page)
        best = min(best, time.perf_counter() - start)
    print(f"{best * 1e6:.1f}")


main()
