"""The proved library, which answers calls in this process."""
import ctypes
import os
import sys
import threading
from collections.abc import Sequence
from pathlib import Path
from typing import Any

from lokwurmi.calls.texts import WHILE_RUNNING, bytes_of, text_of
from lokwurmi.errors import CallFailed, NoEngine
from lokwurmi.model.limits import MOST_ENTRIES
from lokwurmi.model.statuses import Status
from lokwurmi.refusals.program_lines import error_of

VERSIONS = (1, 2)
"""The versions of the library that are known; the first has no schedule, no chains, and no sessions that are kept."""
UNBOUNDED = 2**64 - 1
"""What stands for a bound that is `overload`."""


def places() -> list[Path]:
    """Where a library is looked for."""
    name = "liblokwurmi.dylib" if sys.platform == "darwin" else "liblokwurmi.so"
    named = os.environ.get("LOKWURMI_LIBRARY")
    return ([Path(named)] if named else []) + [Path(__file__).resolve().parents[1] / name]


class Library:
    """The library, in this process. Calls from several threads run side by side: none shares anything with another."""

    def __init__(self, file: str | os.PathLike[str] | None = None):
        there = [Path(file)] if file is not None else [it for it in places() if it.exists()]
        found = there[0] if there else None
        if found is None:
            looked = ", ".join(map(str, places()))
            raise NoEngine(f"there is no library at {looked}: docs/LIBRARY.md says how it is built")
        try:
            self._library = ctypes.CDLL(str(found))
            self._library.lokwurmi_version.restype = ctypes.c_uint32
            self.version: int = self._library.lokwurmi_version()
        except (OSError, AttributeError) as fault:
            raise NoEngine(f"{found} can't be loaded: {fault}") from fault
        if self.version not in VERSIONS:
            known = " and ".join(map(str, VERSIONS))
            raise NoEngine(f"{found} has version {self.version}, and this package is for {known}")
        self.file = found
        self._room = threading.local()

    def __repr__(self) -> str:
        return f"Library({str(self.file)!r})"

    def has(self, command: str) -> bool:
        """Whether the library has a command; one of an older version lacks some, and `open`."""
        return hasattr(self._library, f"lokwurmi_{command}")

    def _buffer(self, least: int) -> Any:
        """A buffer of this thread, of so many bytes at least."""
        room = getattr(self._room, "buffer", None)
        if room is None or len(room) < least:
            room = self._room.buffer = (ctypes.c_uint8 * max(65536, least))()
        return room

    def call(self, command: str, files: Sequence[bytes], words: Sequence[str | int] = ()) -> tuple[int, str]:
        if not self.has(command):
            raise NoEngine(
                f"{self.file} has version {self.version} and no {command}: build it anew, as docs/LIBRARY.md says"
            )
        given: list[Any] = []
        texts = [*files, *(bytes_of(it) for it in words if isinstance(it, str))]
        if command == "chain":
            names = [it for it in words if it != WHILE_RUNNING]
            # names are handed over one a line, so that one with a line end would be two
            if any("\n" in str(it) for it in names):
                return Status.WORDS_REFUSED, "words refused\n"
            texts = [*files, bytes_of("\n".join(map(str, names)))]
        for text in texts:
            given += [ctypes.c_char_p(text), ctypes.c_size_t(len(text))]
        for it in words:
            if not isinstance(it, str):
                # what is no number of 64 bits is out of every range, as the greatest one is
                given.append(ctypes.c_uint64(it if 0 <= it < 2**64 else 2**64 - 1))
        if command == "chain":
            given.append(ctypes.c_uint8(WHILE_RUNNING in words))
        return self.give(f"lokwurmi_{command}", given)

    def give(self, name: str, given: Sequence[Any]) -> tuple[int, str]:
        """The status and the text of a function that is handed so much, and room for the text."""
        function = getattr(self._library, name)
        function.restype = ctypes.c_uint8
        used, least = ctypes.c_size_t(), 0
        while True:
            room = self._buffer(least)
            status = function(*given, room, ctypes.c_size_t(len(room)), ctypes.byref(used))
            if status == Status.WORDS_REFUSED:
                return status, "words refused\n"
            if status == Status.OUT_OF_MEMORY or used.value <= len(room):
                return status, text_of(ctypes.string_at(room, used.value))
            least = used.value

    def keep(self, system: bytes) -> "KeptByLibrary":
        """Opens a session that is kept."""
        return KeptByLibrary(self, system)


class _Handle(ctypes.Structure):
    """lokwurmi_handle of library/lokwurmi.h."""

    _fields_ = [("open", ctypes.c_uint64), ("kept", ctypes.c_void_p)]


class KeptByLibrary:
    """A handle of the library. Calls of one handle may not overlap: whoever has it sees to that."""

    def __init__(self, library: Library, system: bytes):
        self._library = library
        self._handle = _Handle(0, None)
        self._close = library._library.lokwurmi_close
        self._close.restype = None
        self._numbers = [
            (getattr(library._library, f"lokwurmi_{it}"), (ctypes.c_uint64 * most)())
            for it, most in (("bounds", MOST_ENTRIES["task"]), ("latencies", MOST_ENTRIES["path"]))
        ]
        status, text = self._give("open", ctypes.c_char_p(system), ctypes.c_size_t(len(system)))
        if status:
            raise error_of(status, text)

    def _give(self, name: str, *given: Any) -> tuple[int, str]:
        return self._library.give(f"lokwurmi_{name}", [ctypes.byref(self._handle), *given])

    def edit(self, line: str) -> tuple[int, str]:
        text = bytes_of(line)
        return self._give("edit", ctypes.c_char_p(text), ctypes.c_size_t(len(text)))

    def numbers(self) -> tuple[list[int | None], list[int | None]]:
        found: list[list[int | None]] = []
        for function, room in self._numbers:
            function.restype, used = ctypes.c_uint8, ctypes.c_size_t()
            status = function(ctypes.byref(self._handle), room, ctypes.c_size_t(len(room)), ctypes.byref(used))
            if not Status.is_answer(status):
                raise CallFailed(status)
            found.append([None if it == UNBOUNDED else it for it in room[: used.value]])
        return found[0], found[1]

    def report(self) -> tuple[int, str]:
        return self._give("report")

    def close(self) -> None:
        if self._handle.open:
            self._close(ctypes.byref(self._handle))

    def __del__(self) -> None:
        if hasattr(self, "_numbers"):
            self.close()
