"""Has the calls of a campaign made by the workers of a Dask scheduler.

Calls are handed out as threads are there, four for each, so that on a cluster that grows the campaign begins with the
first worker. The program and the file go along as an extension, which workers get that join later too. A call that
can't read its file (11), that ends with 20 or 30, or without a summary, is tried again: the worker is the cause. Other
refusals are the same anywhere, and end the campaign. A worker's death isn't the fault of its calls: only a call that
dies with four workers has failed once.
"""
import contextlib
import itertools
import logging
import math
import os
import queue
import sys
import time
from collections.abc import Callable, Iterator
from typing import Any

import cloudpickle
import distributed
from dask.system import CPU_COUNT

from lokwurmi_tools.campaigns import worker
from lokwurmi_tools.campaigns.campaign_faults import CallRefused, Failed
from lokwurmi_tools.campaigns.campaign_options import CampaignOptions
from lokwurmi_tools.campaigns.kept import KeptAnswers, read_bytes
from lokwurmi_tools.shared.progress import span

# how many calls are under way or wait at the workers, for each of their threads
AHEAD = 4
# seconds for which an answer may be fetched from its worker, and for which this machine may be without any worker
FETCHING, WITHOUT_WORKERS = 60, 300
# its key, how much it counts, and its call
Unit = tuple[str, int, worker.Call]
# workers have Dask, and need nothing else
cloudpickle.register_pickle_by_value(worker)


class CampaignProgress:
    """A line that is written over in a terminal, else one at the beginning, one where the first call is made, and one
    each ten seconds."""

    def __init__(self, what: str, of: int, at: int):
        self.what, self.of, self.begin, self.start, self.told = what, of, at, time.monotonic(), 0.0
        self.at, self.again, self.threads = at, 0, 0
        # calls that the workers have, and how much these are
        self.calls, self.under_way, self.is_begun = 0, 0, False
        self.is_shown = sys.stderr.isatty()

    def show(self, is_last: bool = False) -> None:
        now = time.monotonic()
        is_first = self.calls > 0 and not self.is_begun
        if now - self.told < (0.2 if self.is_shown else 10) and not is_last and not is_first:
            return
        self.is_begun = self.calls > 0
        self.told = now
        took = now - self.start
        line = f"campaign: {self.at} of {self.of} {self.what}, {span(took)}"
        if self.begin < self.at < self.of:
            line += f", some {span(took * (self.of - self.at) / (self.at - self.begin))} to go"
        if self.calls and self.at < self.of:
            line += f", {self.under_way} of them under way in {self.calls} call{'s' if self.calls > 1 else ''}"
        elif not self.threads and self.at < self.of:
            line += ", workers begin"
        if self.threads and self.at < self.of:
            line += f", {self.threads} calls at a time"
        if self.again:
            line += f", {self.again} tried again"
        if self.is_shown:
            print(f"\r\033[K{line}", end="\n" if is_last else "", file=sys.stderr, flush=True)
        else:
            print(line, file=sys.stderr, flush=True)


def close(client: distributed.Client) -> None:
    """Doesn't wait long for a scheduler that is gone."""
    with contextlib.suppress(OSError):
        client.close(timeout=2)


def cluster(options: CampaignOptions, at_end: contextlib.ExitStack) -> distributed.Client:
    """A client of the scheduler that is named, or of a cluster of this machine's processors."""
    logging.disable(logging.CRITICAL)
    if not options.scheduler:
        # what the workers say of their own end doesn't belong into the terminal: their standard error leads nowhere
        sys.stderr = os.fdopen(os.dup(2), "w", buffering=1)
        os.dup2(os.open(os.devnull, os.O_WRONLY), 2)
        nowhere = {"dashboard_address": "127.0.0.1:0"}
        local = distributed.LocalCluster(
            n_workers=options.workers or CPU_COUNT,
            threads_per_worker=1,
            processes=True,
            dashboard_address=None,
            scheduler_kwargs=nowhere,
            worker_dashboard_address="127.0.0.1:0",
            memory_limit=0,
            silence_logs=logging.CRITICAL,
        )
        at_end.callback(local.close)
        client = distributed.Client(local)
        at_end.callback(client.close)
        return client
    try:
        client = distributed.Client(options.scheduler, timeout="30s")
    # of tls:// without certificates it is a TypeError
    except (OSError, ValueError, TypeError) as fault:
        raise Failed(
            f"no scheduler answers at {options.scheduler}; an address is as tcp://host:8786: {fault}"
        ) from None
    at_end.callback(close, client)
    try:
        client.wait_for_workers(1, timeout=60)
    except OSError:
        raise Failed(
            f"no worker came to the scheduler within 60 seconds: start some by dask-worker {options.scheduler}"
        ) from None
    return client


def gone(options: CampaignOptions) -> Failed:
    """What is said where the scheduler has ended."""
    return Failed(f"the scheduler{f' at {options.scheduler}' if options.scheduler else ''} is gone: start it anew")


@contextlib.contextmanager
def telling_gone(options: CampaignOptions) -> Iterator[None]:
    """Says so too where the library meets a connection that the scheduler has closed, whatever it was asked."""
    try:
        yield
    except distributed.comm.core.CommClosedError:
        raise gone(options) from None


class CallsUnderWay:
    """The calls of a campaign that are under way."""

    def __init__(self, client: distributed.Client, options: CampaignOptions, units: list[Unit], together: int):
        self.client, self.options, self.together = client, options, together
        self.waiting, self.left = iter(units), len(units)
        self.done: queue.SimpleQueue[Any] = queue.SimpleQueue()
        self.running: dict[distributed.Future, list[Unit]] = {}
        self.tries: dict[str, int] = {}
        self.again = 0
        self.threads, self.asked, self.seen = 0, -math.inf, time.monotonic()
        self.sent = worker.Sent(read_bytes(options.program), read_bytes(options.file))
        client.register_worker_plugin(self.sent, name=self.sent.name)

    def end(self) -> None:
        """Ends what is under way, and takes from the workers what was sent."""
        if self.client.status == "running":
            with contextlib.suppress(Exception):
                self.client.cancel(list(self.running))
                self.client.unregister_worker_plugin(self.sent.name)

    def start(self, units: list[Unit], spared: str | None = None) -> None:
        others = [it for it in self.client.nthreads() if it != spared] if spared else []
        # pure=False: what failed isn't remembered as the answer
        future = self.client.submit(
            worker.work,
            self.sent.name,
            [it[2] for it in units],
            pure=False,
            **({"workers": others} if others else {}),
            allow_other_workers=bool(others),
        )
        self.running[future] = units
        future.add_done_callback(self.done.put)

    def fill(self) -> None:
        """Has so many calls under way that no thread waits for its next one, those of workers that came meanwhile
        too. This machine's own workers are begun anew where they end, unless it has too much else to do."""
        if time.monotonic() - self.asked > 2:
            self.asked = time.monotonic()
            self.threads = sum(self.client.nthreads().values())
            if self.threads or self.options.scheduler:
                self.seen = self.asked
            elif self.asked - self.seen > WITHOUT_WORKERS:
                raise Failed(f"no worker is left on this machine, and none began within {WITHOUT_WORKERS} seconds")
        while self.left and len(self.running) < AHEAD * max(1, self.threads):
            count = max(1, min(self.together, self.left // (2 * AHEAD * max(1, self.threads))))
            units = list(itertools.islice(self.waiting, count))
            self.left -= len(units)
            self.start(units)

    def next(self) -> distributed.Future | None:
        """A future that ended, or None where none did in a second."""
        try:
            future: distributed.Future = self.done.get(timeout=1)
            return future
        except queue.Empty:
            return None

    def death(self) -> str:
        """Under which call workers died: Dask tells so of those, too, that waited behind it at each of them."""
        # of all these it tells at once
        time.sleep(0.2)
        several = [unit[0] for it, units in self.running.items() if it.status == "error" for unit in units]
        beside = f", or under what waited with it: {', '.join(several)}" if several else ""
        return f"the worker died, and those before it under the same call{beside}"

    def take(self, future: distributed.Future) -> Iterator[tuple[Unit, worker.Answer]]:
        """Gives the units of a future that ended, with their answers; those that it lacks are tried again, each for
        itself."""
        units, where, answers, fault = self.running.pop(future), None, [], None
        # the worker that had the answer ended meanwhile, which is no fault of the call
        is_lost = False
        if future.status == "finished":
            try:
                where, answers, fault = future.result(timeout=FETCHING)
            except TimeoutError:
                is_lost = True
        elif future.status in ("lost", "pending") and self.client.status == "running":
            is_lost = True
        elif future.status == "error":
            # the scheduler handed it on to other workers before
            fault = future.exception()
            if isinstance(fault, distributed.scheduler.KilledWorker):
                where, fault = fault.last_worker.address, self.death()
        else:
            raise gone(self.options)
        future.release()
        yield from (it for it in zip(units, answers) if it[1][0] < 10)
        if answers and answers[-1][0] >= 10:
            status, text = answers[-1]
            raise CallRefused(status, text, units[len(answers) - 1][2][2])
        # what comes after a call that failed wasn't tried
        for place, unit in enumerate(units[len(answers) :]):
            if not is_lost and (place == 0 or future.status == "error"):
                self.tries[unit[0]] = self.tries.get(unit[0], 0) + 1
                if self.tries[unit[0]] >= self.options.tries:
                    of = f" of the script\n{unit[2][2]}" if unit[2][2] else ""
                    raise Failed(
                        f"{unit[0]}{of}: {self.options.tries} of {self.options.tries} tries failed,"
                        f" the last one{f' on {where}' if where else ''}: {fault}"
                    )
                self.again += 1
            self.start([unit], where)


def run(
    options: CampaignOptions,
    what: str,
    units: list[Unit],
    kept: KeptAnswers,
    look: Callable[[str, worker.Answer], bool] = lambda key, answer: False,
    together: int = 1,
) -> None:
    """Has each unit worked out that isn't kept yet; a unit is its key, how much it counts, and its call.

    look is handed each answer, the kept ones too, and ends the campaign where it answers true.
    """
    left = [it for it in units if it[0] not in kept]
    if any(look(it[0], kept[it[0]]) for it in units if it[0] in kept):
        return
    whole = sum(it[1] for it in units)
    progress = CampaignProgress(what, whole, whole - sum(it[1] for it in left))
    with contextlib.ExitStack() as at_end, telling_gone(options):
        engine = None
        if left:
            progress.show()
            engine = CallsUnderWay(cluster(options, at_end), options, left, together)
            at_end.callback(engine.end)
            engine.fill()
        while engine and engine.running:
            progress.threads, progress.again = engine.threads, engine.again
            several = [unit for units in engine.running.values() for unit in units]
            progress.calls, progress.under_way = len(several), sum(unit[1] for unit in several)
            progress.show()
            if future := engine.next():
                for unit, answer in engine.take(future):
                    kept.add(unit[0], answer)
                    progress.at += unit[1]
                    if look(unit[0], answer):
                        progress.show(is_last=True)
                        return
            engine.fill()
        progress.show(is_last=True)
