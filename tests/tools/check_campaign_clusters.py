#!/usr/bin/env python3
"""Tries `lokwurmi campaign` with schedulers that are there already, and with workers of other addresses. Outside the
gate.

Workers go and come, and the scheduler itself goes; as root, workers of another address are tried in a network namespace
too. Ends with 1 where a case is wrong.

    python3 -m tests.tools.check_campaign_clusters [--only schedulers | hosts]
"""
import json
import os
import shutil
import subprocess
import tempfile
import time

from tests.support.calls import written
from tests.support.campaigns import (
    CROSSING,
    PROGRAM,
    QUIET,
    added,
    begin,
    calls_in,
    campaign,
    grid_of_help,
    hold,
    main,
    stand_in,
    wait_for,
)


class Scheduler:
    """A scheduler with workers of its own, as on several machines."""

    def __init__(self, folder, words=("--host", "127.0.0.1"), before=()):
        self.file = os.path.join(folder, f"scheduler{time.monotonic()}.json")
        self.folder, self.before, self.run = folder, before, []
        self.start("dask-scheduler", "--port", "0", *words)
        wait_for(lambda: os.path.exists(self.file) and os.path.getsize(self.file))
        with open(self.file) as it:
            self.address = json.load(it)["address"]

    def start(self, program, *words, before=()):
        self.run.append(
            subprocess.Popen([*before, program, "--scheduler-file", self.file, "--no-dashboard", *words], **QUIET)
        )

    def worker(self, *words, before=()):
        self.start(
            "dask-worker",
            "--no-nanny",
            "--nthreads",
            "2",
            "--memory-limit",
            "0",
            "--local-directory",
            self.folder,
            *words,
            before=before,
        )
        return self.run[-1]

    def end(self):
        for it in self.run:
            it.kill()
            it.wait()


def schedulers(folder):
    """One of the workers goes for good, others come later, and then the scheduler itself goes."""
    slow = stand_in(folder, "slow2", '"$program" "$@"; status=$?; sleep 0.3; echo "$3" >>"$log"; exit $status')
    engine = Scheduler(folder)
    try:
        engine.worker()
        worker_goes(engine, engine.worker(), slow, folder)
        same_table(engine, folder)
        others_come(engine, slow)
        scheduler_goes(engine, slow, os.path.join(folder, "kept4"))
    finally:
        engine.end()
    no_scheduler()


def worker_goes(engine, worker, slow, folder):
    """A worker of two is killed for good."""
    running = begin(slow, "hammer", CROSSING, "--traces", 200, "--call", 5, "--scheduler", engine.address)
    wait_for(lambda: len(calls_in(slow)) >= 12)
    worker.kill()
    text, _ = running.communicate()
    hold(
        running.returncode == 0 and text == added(CROSSING, [(it, 5) for it in range(1, 41)]),
        f"by --scheduler, with workers of two threads, one of which is killed for good (status {running.returncode})",
    )
    rooms = [os.listdir(folder), *(it for _, _, it in os.walk(os.path.join(folder, "dask-worker-space")))]
    left = [it for names in rooms for it in names if it.startswith("lokwurmi-")]
    hold(len(left) <= 1, f"what was sent goes from the workers that are left ({len(left)} left by the killed one)")
    os.remove(slow + ".log")


def same_table(engine, folder):
    """Variants by a scheduler are those of a campaign of its own."""
    grid = written(folder, "grid2.toml", grid_of_help())
    hold(
        campaign(PROGRAM, "variants", CROSSING, grid, "--scheduler", engine.address).stdout
        == campaign(PROGRAM, "variants", CROSSING, grid, "--workers", 1).stdout,
        "by --scheduler, variants: the same table",
    )


def others_come(engine, slow):
    """All workers go, and two come."""
    running = begin(slow, "hammer", CROSSING, "--traces", 150, "--call", 5, "--scheduler", engine.address)
    wait_for(lambda: len(calls_in(slow)) >= 4)
    engine.run[1].kill()
    time.sleep(2)
    for _ in range(2):
        engine.worker()
    text, told = running.communicate()
    why = told[-200:] if running.returncode else ""
    hold(
        running.returncode == 0 and text == added(CROSSING, [(it, 5) for it in range(1, 31)]),
        f"all workers go, and others come: nothing is lost (status {running.returncode}) {why}",
    )
    os.remove(slow + ".log")


def scheduler_goes(engine, slow, keep):
    """The scheduler goes, and with it the campaign, which goes on by what is kept."""
    words = ("--traces", 300, "--call", 5, "--scheduler", engine.address, "--resume", keep)
    running = begin(slow, "hammer", CROSSING, *words)
    wait_for(lambda: len(calls_in(slow)) >= 4)
    engine.run[0].kill()
    start = time.monotonic()
    text, told = running.communicate()
    is_told = "is gone" in told and f"--resume {keep}" in told and "Traceback" not in told
    hold(
        running.returncode == 3 and text == "" and is_told,
        f"a scheduler that goes is told, and how to go on ({time.monotonic() - start:.0f} s)",
    )


def no_scheduler():
    """An address at which there is none."""
    for address in ("tcp://127.0.0.1:1", "nowhere://x", "tls://127.0.0.1:1"):
        done = campaign(PROGRAM, "hammer", CROSSING, "--traces", 20, "--scheduler", address)
        is_told = f"no scheduler answers at {address}" in done.stderr and "Traceback" not in done.stderr
        hold(
            done.returncode == 3 and is_told and "--resume" not in done.stderr,
            f"an address without a scheduler is told: {address}",
        )


class Hosts:
    """Two network namespaces with addresses of their own, each with a cable to a bridge of this host."""

    NET = "10.213.77."

    def __init__(self):
        self.number = os.getpid()
        self.names, self.bridge = [f"lok{self.number}{it}" for it in "ab"], f"lokbr{self.number}"[:15]

    def ip(self, *words):
        return subprocess.run(["ip", *words], check=False, **QUIET).returncode == 0

    def cable(self, place, end):
        """The name of an end of a cable: `h` here, `t` there."""
        return f"v{end}{place}{self.number}"[:15]

    def address(self, place):
        return f"{self.NET}{place + 2}"

    def make(self):
        """Whether both could be made."""
        return (
            all(self.ip("netns", "add", it) for it in self.names)
            and self.ip("link", "add", self.bridge, "type", "bridge")
            and self.ip("addr", "add", self.NET + "1/24", "dev", self.bridge)
            and self.ip("link", "set", self.bridge, "up")
            and all(self.connect(place, name) for place, name in enumerate(self.names))
        )

    def connect(self, place, name):
        """Lays a cable from the bridge to a host."""
        here, there = self.cable(place, "h"), self.cable(place, "t")
        return (
            self.ip("link", "add", here, "type", "veth", "peer", "name", there)
            and self.ip("link", "set", there, "netns", name)
            and self.ip("link", "set", here, "master", self.bridge)
            and self.ip("link", "set", here, "up")
            and self.ip("-n", name, "addr", "add", f"{self.address(place)}/24", "dev", there)
            and self.ip("-n", name, "link", "set", there, "up")
            and self.ip("-n", name, "link", "set", "lo", "up")
        )

    def pull(self, place):
        """Pulls the cable of a host."""
        self.ip("-n", self.names[place], "link", "set", self.cable(place, "t"), "down")

    def end(self):
        for it in self.names:
            self.ip("netns", "del", it)
        self.ip("link", "del", self.bridge)


def hosts(folder):
    """Scheduler and workers on addresses of their own, each in a network namespace, as two hosts that share no
    folder."""
    if os.geteuid() != 0 or not shutil.which("ip"):
        print("left out: hosts of their own, which want root and the command ip")
        return
    both, engine = Hosts(), None
    try:
        if not both.make():
            print("left out: hosts of their own: a bridge or a cable couldn't be made here")
            return
        engine = Scheduler(folder, ("--host", both.NET + "1"))
        for place, name in enumerate(both.names):
            own = ("--host", both.address(place), "--local-directory", tempfile.mkdtemp(dir=folder))
            engine.worker(*own, before=("ip", "netns", "exec", name))
        host_goes(both, engine, folder)
    finally:
        if engine:
            engine.end()
        both.end()


def host_goes(both, engine, folder):
    """The cable of the second is pulled, with its calls under way."""
    says_where = '"$program" "$@"; status=$?; sleep 0.2; echo "$3 $(hostname -I)" >>"$log"; exit $status'
    log = stand_in(folder, "host", says_where)
    running = begin(log, "hammer", CROSSING, "--traces", 200, "--call", 5, "--scheduler", engine.address)
    wait_for(lambda: len(calls_in(log)) >= 16)
    text_was = open(log + ".log").read() if os.path.exists(log + ".log") else ""
    start = time.monotonic()
    both.pull(1)
    engine.run[-1].kill()
    text, told = running.communicate()
    took, why = time.monotonic() - start, told[-200:] if running.returncode else ""
    hold({both.address(0), both.address(1)} <= set(text_was.split()), "both hosts had calls")
    hold(
        running.returncode == 0 and text == added(CROSSING, [(it, 5) for it in range(1, 41)]),
        f"a host whose cable is pulled loses nothing (status {running.returncode}, {took:.0f} s later) {why}",
    )


if __name__ == "__main__":
    main(__doc__, schedulers, hosts)
