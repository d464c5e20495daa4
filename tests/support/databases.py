"""Databases and systems that the checks of imports make, and what the tools say of them."""
import os
import random
import subprocess
import sys
import tempfile
import tomllib
from collections.abc import Callable, Iterable, Mapping, Sequence
from typing import Any

from tests.support.calls import TOP, add_number, built, hold, python_with, reader_of, run, tell

PYTHON = python_with("canmatrix", "lxml", "can", "tomlkit", "xlrd", "xlwt", "xlsxwriter")
if PYTHON is None:
    packages = "python3-canmatrix python3-lxml python3-can python3-tomlkit python3-xlrd python3-xlwt python3-xlsxwriter"
    sys.exit(f"a package isn't here: apt-get install {packages}")
if PYTHON != sys.executable:
    os.execv(PYTHON, [PYTHON, *sys.orig_argv[1:]])

os.chdir(TOP)
import lxml.etree  # noqa: E402

from lokwurmi_tools.networks.databases import canmatrix  # noqa: E402

PROGRAM = os.path.abspath(built("cpa_cli"))
# a name, an identifier, whether it has 29 bits, bytes, a cycle in milliseconds, and attributes
Frame = tuple[str, int, bool, int, int, Mapping[str, float]]


def least_and_greatest(size: int, extended: bool) -> tuple[int, int]:
    """The bits of a classical frame and the three after it: 34 or 54 of them, and the payload, may get stuff bits."""
    stuffed = (54 if extended else 34) + 8 * size
    return stuffed + 13, stuffed + 13 + (stuffed - 1) // 4


def called(name: str, *words: object) -> subprocess.CompletedProcess[str]:
    """A call of a tool, by the Python that has what it needs."""
    return run(name, *words, python=PYTHON)


def said_by(name: str, *words: object) -> str:
    """What a call says where it is refused, with status 1 or 2 and nothing of the inside of Python."""
    done = called(name, *words)
    hold(
        done.returncode in (1, 2) and done.stdout == "" and "Traceback" not in done.stderr,
        f"{name} {words}: {done.returncode} {done.stderr}",
    )
    return done.stderr


def hold_refused(name: str, cases: Iterable[tuple[str, Sequence[object]]]) -> None:
    """Holds that calls are refused, each with what is said."""
    for said, words in cases:
        told = said_by(name, *words)
        hold(said in told, f"{name} {words}: {told}")


def analysed(file: str) -> tuple[int, str]:
    done = subprocess.run([PROGRAM, "analyse", file], capture_output=True, text=True, check=False)
    return done.returncode, done.stdout


def system_of(text: str) -> dict[str, Any]:
    return tomllib.loads(text)


def matrix_of(frames: Iterable[Frame]) -> "canmatrix.CanMatrix":
    """A bus of frames, each a name, an identifier, whether it has 29 bits, bytes, a cycle in milliseconds, and
    attributes."""
    matrix = canmatrix.CanMatrix()
    for key, define in (
        ("GenMsgCycleTime", "INT 0 3600000"),
        ("GenMsgDelayTime", "INT 0 3600000"),
        ("JitterMs", "FLOAT 0 100000"),
        ("DeadlineMs", "FLOAT 0 100000"),
    ):
        matrix.add_frame_defines(key, define)
        matrix.add_define_default(key, "0")
    matrix.add_frame_defines("GenMsgSendType", 'ENUM "Cyclic","Spontaneous","CyclicAndSpontaneous"')
    matrix.add_define_default("GenMsgSendType", '"Cyclic"')
    for name, identifier, extended, size, cycle, attributes in frames:
        frame = canmatrix.Frame(
            name, arbitration_id=canmatrix.ArbitrationId(identifier, extended=extended), size=size, cycle_time=cycle
        )
        for key, value in attributes.items():
            frame.add_attribute(key, str(value))
        if size:
            frame.add_signal(canmatrix.Signal(f"v_{name}", start_bit=0, size=8 * size, is_signed=False))
        matrix.add_frame(frame)
    return matrix


def dumped(room: str, name: str, matrices: "canmatrix.CanMatrix | dict[str, canmatrix.CanMatrix]") -> str:
    file = os.path.join(room, name)
    canmatrix.formats.dumpp(matrices if isinstance(matrices, dict) else {"": matrices}, file)
    return file


def timed_arxml(room: str, file: str, periods: Mapping[str, str], offsets: Mapping[str, str] | None = None) -> str:
    """An ARXML file in which frames get the periods and offsets that are given in seconds, which canmatrix doesn't
    write."""
    tree = lxml.etree.parse(file)
    space = tree.getroot().nsmap[None]

    def made(parent: Any, name: str, text: str | None = None) -> Any:
        child = lxml.etree.SubElement(parent, f"{{{space}}}{name}")
        child.text = text
        return child

    for pdu in tree.getroot().iter(f"{{{space}}}SIGNAL-I-PDU", f"{{{space}}}I-SIGNAL-I-PDU"):
        name = pdu.findtext(f"{{{space}}}SHORT-NAME").removeprefix("PDU_")
        if name in periods:
            timing = made(made(pdu, "I-PDU-TIMING-SPECIFICATIONS"), "I-PDU-TIMING")
            made(timing, "MINIMUM-DELAY", "0.005")
            mode = made(made(timing, "TRANSMISSION-MODE-DECLARATION"), "TRANSMISSION-MODE-TRUE-TIMING")
            cyclic = made(mode, "CYCLIC-TIMING")
            if offsets and name in offsets:
                made(made(cyclic, "TIME-OFFSET"), "VALUE", offsets[name])
            made(made(cyclic, "TIME-PERIOD"), "VALUE", periods[name])
    timed = os.path.join(room, "timed.arxml")
    tree.write(timed, pretty_print=True)
    return timed


def imported(*words: object) -> tuple[dict[str, Any], str, str]:
    """The system of some databases, and what is told of it."""
    done = called("import network", *words)
    hold(done.returncode == 0, f"import network {words}: {done.stderr}")
    return (system_of(done.stdout) if done.returncode == 0 else {}), done.stderr, done.stdout


def random_frames(draw: random.Random, kinds: Sequence[bool]) -> list[Frame]:
    frames: list[Frame] = []
    taken: set[tuple[int, bool]] = set()
    for place in range(draw.randint(1, 30)):
        extended = draw.choice(kinds)
        identifier = (
            draw.choice((draw.randrange(1 << 29), draw.randrange(40) << 18 | draw.choice((0, draw.randrange(3)))))
            if extended
            else draw.choice((draw.randrange(1 << 11), draw.randrange(40)))
        )
        if (identifier, extended) not in taken:
            taken.add((identifier, extended))
            frames.append(
                (
                    f"f{place}",
                    identifier,
                    extended,
                    draw.randint(0, 8),
                    draw.choice((5, 10, 20, 25, 50, 100, 1000)),
                    {"JitterMs": draw.choice((0, 0.1, 2.5, 30, 400))},
                )
            )
    return frames


def obeys(times: Sequence[int], period: int, jitter: int, distance: int) -> bool:
    """By each pair."""
    return all(
        b - a >= max(0, (k - i) * distance, (k - i) * period - jitter)
        for i, a in enumerate(times)
        for k, b in enumerate(times)
        if i < k
    )


def run_checks(
    doc: str | None, checks: Sequence[Callable[..., None]], counted: Sequence[Callable[..., None]] = (), count: int = 60
) -> None:
    """Runs checks, each with a folder, and those that are counted also with how many generated systems are tried."""
    reader = reader_of(doc, "5" if counted else "", "the programs, and the packages that databases.py names")
    if counted:
        add_number(reader, "count", count, "how many generated systems of a kind")
    words = reader.parse_args()
    with tempfile.TemporaryDirectory() as room:
        for check in checks:
            check(room)
        for check in counted:
            check(room, words.count)
    tell()
