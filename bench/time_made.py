#!/usr/bin/env python3
"""Measures how long the commands on generated systems and generated traces take, and what starting the program costs.

Prints a line a case: the least time of some calls, the peak memory of one, the last line.

- start: words that are refused before `clap` is asked, words that are refused after it, and /bin/true beside them;
- load and generate of the largest generated system;
- hammer: the network of a car under 1,000 and 10,000 generated traces, on two processors and on one.

    python3 -m bench.time_made
"""
import os

from bench.timing import least

TOP = os.path.join(os.path.dirname(os.path.abspath(__file__)), "..")
PROGRAM = os.path.join(TOP, "crates/cpa_cli/out/cpa_cli")
CAR = os.path.join(TOP, "examples/car_network.toml")


def show(name, words, calls, processors=None):
    command = (["taskset", "-c", processors] if processors else []) + words
    seconds, peak, last = least(command, calls)
    print(f"{name:34} {seconds * 1e3:10.2f} ms {peak:6.1f} MB  {last[:60]}", flush=True)
    return seconds


def main():
    show("/bin/true", ["/bin/true"], 100)
    show("words refused before clap", [PROGRAM, "help"], 100)
    show("words read by clap", [PROGRAM, "load", "7", "0"], 100)
    show("generate 1 128", [PROGRAM, "generate", "1", "128"], 20)
    show("load 1 128", [PROGRAM, "load", "1", "128"], 20)
    for traces, calls in (("1000", 5), ("10000", 2)):
        words = [PROGRAM, "hammer", CAR, "7", traces]
        one = show(f"hammer, {traces} traces, 1 processor", words, calls, "0")
        two = show(f"hammer, {traces} traces, 2 processors", words, calls, "0,1")
        print(f"{'':34} two are {one / two:.2f} times as fast as one")


if __name__ == "__main__":
    main()
