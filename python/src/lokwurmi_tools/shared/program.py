"""Calls the proved program, for the tools beside it."""
import os
import shlex
import shutil
import subprocess
import sys
from collections.abc import Mapping, Sequence
from pathlib import Path
from typing import NoReturn

from lokwurmi.refusals.remark import printable
from lokwurmi_tools.shared.faults import Fault, Told

# the folder of the repository, where this package lies in one
TOP = Path(__file__).resolve().parents[4]
# what is called: the script of the repository, which builds the program, or an installed one
IS_REPOSITORY = (TOP / "lokwurmi").is_file()
LAUNCHER = str(TOP / "lokwurmi") if IS_REPOSITORY else shutil.which("lokwurmi") or "lokwurmi"
# the program itself, which other machines can run
BINARY = str(TOP / "crates" / "cpa_cli" / "out" / "cpa_cli") if IS_REPOSITORY else LAUNCHER


def is_built() -> bool:
    """Whether what is called by default answers without a build."""
    return os.access(BINARY, os.X_OK) if IS_REPOSITORY else shutil.which(LAUNCHER) is not None


def often(program: str) -> str:
    """What to call where there are many calls: what the launcher has built by now, once it was called."""
    return BINARY if program == LAUNCHER and is_built() else program


def call(program: str, *words: str, opened: Sequence[int] = ()) -> tuple[int, str]:
    """The status of a call, and what it writes; files that were opened may be handed over. What it tells a terminal, as
    how far a build is, goes there; what it would say beside its output is said by whoever calls."""
    quiet = os.environ | {"LOKWURMI_QUIET": "1"}
    try:
        done = subprocess.run(
            [program, *words], stdout=subprocess.PIPE, text=True, check=False, env=quiet, pass_fds=opened
        )
    except OSError as fault:
        raise Fault(
            f"{program}: can't be called: {fault.strerror}. `./lokwurmi --version` builds nothing,"
            " any other command of ./lokwurmi builds the program; --program names one"
        )
    if done.returncode == 70:
        raise Fault(f"{program}: the program isn't there, and couldn't be built")
    return done.returncode, done.stdout


def end_refused(status: int, text: str, *words: str, names: Mapping[str, str] | None = None) -> NoReturn:
    """Ends the tool by the status of a refusal or a fault, with what `lokwurmi` says of it; `names` are those by which
    files were given of which copies were read."""
    from lokwurmi_tools.shared.system_file import told_of

    line = text.strip().split("\n", 1)[0] or "nothing is written"
    told = printable(f"lokwurmi {shlex.join(words)}: status {status}: {line}") + "\n"
    told += told_of(status, line, *words) or 'docs/FILES.md, "Statuses", tells what to do\n'
    for copy, name in (names or {}).items():
        told = told.replace(copy, printable(name))
    sys.stderr.write(told)
    raise Told(status)


def written_by(program: str, *words: str) -> str:
    """What a call writes, whose status is a verdict; a refusal or a fault ends the tool."""
    status, text = call(program, *words)
    if status < 0 or status >= 10:
        end_refused(status, text, *words)
    return text
