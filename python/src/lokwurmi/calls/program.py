"""The proved program, which answers each call as a process of its own."""
import os
import shutil
import subprocess
import tempfile
from collections.abc import Sequence
from pathlib import Path

from lokwurmi.calls.texts import bytes_of, text_of
from lokwurmi.errors import NoEngine
from lokwurmi.model.commands import FILES
from lokwurmi.model.statuses import Status

TOP = Path(__file__).resolve().parents[4]
"""The repository, where the package is used from there."""


class Program:
    """The program, a process for each call: `file`, or what LOKWURMI_PROGRAM names, or `lokwurmi` in the search path,
    or the program of the repository where it is built. The texts go by way of files in a folder for temporary files."""

    def __init__(self, file: str | os.PathLike[str] | None = None):
        built = TOP / "crates/cpa_cli/out/cpa_cli"
        named = os.fspath(file) if file is not None else os.environ.get("LOKWURMI_PROGRAM")
        found = named or shutil.which("lokwurmi") or (str(built) if built.is_file() else None)
        if found is None:
            raise NoEngine(
                "there is no library, no program lokwurmi in the search path, and LOKWURMI_PROGRAM names none:"
                " docs/LIBRARY.md says how they are built"
            )
        self.file = Path(os.path.abspath(found))

    def __repr__(self) -> str:
        return f"Program({str(self.file)!r})"

    def call(self, command: str, files: Sequence[bytes], words: Sequence[str | int] = ()) -> tuple[int, str]:
        with tempfile.TemporaryDirectory(prefix="lokwurmi") as folder:
            for name, text in zip(FILES[command], files, strict=True):
                Path(folder, name).write_bytes(text)
            try:
                done = subprocess.run(
                    [self.file, command, *FILES[command], *(bytes_of(str(it)) for it in words)],
                    cwd=folder,
                    stdout=subprocess.PIPE,
                    check=False,
                    env=os.environ | {"LOKWURMI_QUIET": "1"},
                )
            except ValueError:
                # a word with a byte 0 is none
                return Status.WORDS_REFUSED, "words refused\n"
            except OSError as fault:
                raise NoEngine(f"{self.file}: can't be called: {fault}") from fault
        return done.returncode, text_of(done.stdout)
