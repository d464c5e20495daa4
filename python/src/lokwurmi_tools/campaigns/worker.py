"""What a campaign does on a worker. Dask sends this module there as it is: it has to do without the rest of this
package."""
import contextlib
import os
import shutil
import socket
import subprocess
import tempfile
import threading
import uuid
from typing import Any

import distributed

# the statuses of calls that wrote all, and those of which a worker may be the cause: a file that it couldn't read,
# output that it couldn't write, out of memory
WHOLE, PASSING = {"hammer": (0,), "session": (0, 1, 2)}, (11, 20, 30)
# a command, its words after the file, and the text of its script, or None; and a status and a text
Call = tuple[str, list[str], str | None]
Answer = tuple[int, str]


def take_processor() -> tuple[int | None, contextlib.AbstractContextManager[Any]]:
    """A processor that no call of this machine was given yet, and what holds it until it is closed; None where each is
    given."""
    for it in sorted(os.sched_getaffinity(0)):
        holder = socket.socket(socket.AF_UNIX)
        try:
            # a name without a file, which goes with the process that has it
            holder.bind(f"\0lokwurmi-processor-{it}")
            return it, holder
        except OSError:
            holder.close()
    return None, contextlib.nullcontext()


class Sent(distributed.WorkerPlugin):
    """The program and the system file, which each worker writes down when it gets them, those that come later too.

    At the end of the campaign what still runs there is killed, and the files go.
    """

    def __init__(self, program: bytes, system: bytes):
        self.name = f"lokwurmi-{uuid.uuid4().hex}"
        self.contents = {"program": program, "system.toml": system}

    def setup(self, worker: Any) -> None:
        self.lock, self.room = threading.Lock(), worker.local_directory
        self.running: set[subprocess.Popen[bytes]] = set()
        self.folder: str | None = None
        # a full disk is told by the call that is tried here, so that it is tried elsewhere
        with contextlib.suppress(OSError):
            self.write()

    def teardown(self, worker: Any) -> None:
        for it in list(self.running):
            it.kill()
        if self.folder:
            shutil.rmtree(self.folder, ignore_errors=True)

    def write(self) -> str:
        """The folder with both files, which are written anew where one isn't there."""
        with self.lock:
            if self.folder and all(os.path.exists(os.path.join(self.folder, it)) for it in self.contents):
                return self.folder
            os.makedirs(self.room, exist_ok=True)
            folder = tempfile.mkdtemp(prefix="lokwurmi-", dir=self.room)
            for name, content in self.contents.items():
                path = os.path.join(folder, name)
                with open(path, "wb") as it:
                    it.write(content)
                os.chmod(path, 0o700)
            self.folder = folder
            return folder

    def begin(self, words: list[str], processor: int | None) -> "subprocess.Popen[bytes]":
        """Starts a call, on one processor if that is told: `hammer` has threads for all that it may use."""
        allowed = os.sched_getaffinity(0)
        try:
            if processor is not None:
                # of this thread, and so of what it starts
                os.sched_setaffinity(0, {processor})
            return subprocess.Popen(words, stdout=subprocess.PIPE, stderr=subprocess.PIPE)
        finally:
            os.sched_setaffinity(0, allowed)

    def call(self, words: list[str]) -> tuple[int, str, str]:
        """The status of a call and what it writes on both streams."""
        processor, holder = take_processor() if words[1] == "hammer" else (None, contextlib.nullcontext())
        with holder, self.begin(words, processor) as process:
            self.running.add(process)
            try:
                text, errors = process.communicate()
            finally:
                self.running.discard(process)
        return process.returncode, text.decode("ascii", "replace"), errors.decode("ascii", "replace")


def fault_of(command: str, status: int, text: str, errors: str) -> str | None:
    """Why another worker has to make a call, or None where what it wrote is an answer."""
    last = text.splitlines()[-1:]
    if status < 0 or status in PASSING:
        return f"it ended with {f'signal {-status}' if status < 0 else status} {errors[-500:]}".strip()
    if status < 10 and (status not in WHOLE[command] or not last or not last[0].startswith("summary ")):
        return f"it ended with {status}, without a summary {errors[-500:]}".strip()
    return None


def answers_of(sent: Sent, calls: list[Call], answers: list[Answer]) -> str | None:
    """Adds to the answers what calls write, up to one that is refused; why they end before, or None."""
    folder = sent.write()
    with tempfile.TemporaryDirectory(dir=folder) as room:
        for command, words, script in calls:
            if script is not None:
                words = [os.path.join(room, "script.txt"), *words]
                with open(words[0], "w", encoding="ascii") as it:
                    it.write(script)
            program, system = (os.path.join(folder, it) for it in ("program", "system.toml"))
            status, text, errors = sent.call([program, command, system, *words])
            if fault := fault_of(command, status, text, errors):
                return fault
            answers.append((status, text))
            if status >= 10:
                break
    return None


def work(name: str, calls: list[Call]) -> tuple[str, list[Answer], str | None]:
    """The worker's address, what calls of the program write, a status and a text each, and why these are fewer than the
    calls, or None."""
    worker = distributed.get_worker()
    answers: list[Answer] = []
    try:
        sent: Any = worker.plugins[name]
        return worker.address, answers, answers_of(sent, calls, answers)
    except KeyError:
        return worker.address, answers, "the program didn't come to this worker"
    except OSError as fault:
        return worker.address, answers, str(fault)
