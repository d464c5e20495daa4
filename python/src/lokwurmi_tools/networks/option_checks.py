"""Refuses options that concern nothing in the databases, and frames for which a word of the user's is wanted."""
import fnmatch
from collections.abc import Iterable
from typing import TYPE_CHECKING

from lokwurmi_tools.networks.buses import Frame
from lokwurmi_tools.networks.import_notes import CONCERN, WANTED, names_text
from lokwurmi_tools.shared.faults import Fault

if TYPE_CHECKING:
    from lokwurmi_tools.networks.frames_to_tasks import Taker


def is_named(frame: Frame, pattern: str) -> bool:
    """Whether a pattern names a frame, as it is called in the system or in the database."""
    return any(fnmatch.fnmatchcase(it, pattern) for it in (frame.name, frame.told))


def check_attributes(taker: "Taker") -> None:
    """Refuses an attribute that no frame has: it would tell nothing, in silence."""
    known = {key for bus in taker.buses for it in bus.frames for key in it.attributes}
    for option in ("jitter_attribute", "deadline_attribute"):
        name = getattr(taker.options, option)
        if name is not None and name not in known:
            word = option.replace("_", "-")
            raise Fault(f"--{word} {name}: no frame has such an attribute; {names_text(known)}")


def check_patterns(option: str, patterns: Iterable[str], frames: list[Frame], lost: Iterable[str] = ()) -> None:
    """Refuses a pattern that names no frame: it would do nothing, in silence."""
    for pattern in patterns:
        if any(fnmatch.fnmatchcase(it, pattern) for it in lost):
            continue
        if frames and not any(is_named(it, pattern) for it in frames):
            among = " among those that are taken" if option == "--paths" else ""
            raise Fault(f"{option} {pattern}: there is no such frame{among}; {names_text(it.name for it in frames)}")


def check_lacking(taker: "Taker") -> None:
    """Refuses frames for which a word of the user's is wanted, by a list of them."""
    for option, (what, helps) in WANTED.items():
        if names := taker.lacking.get(option):
            what = what.format(jitter_attribute=taker.options.jitter_attribute)
            files = ", ".join(dict.fromkeys(it.file for it in taker.buses))
            raise Fault(
                f"{files}: {what}: {', '.join(names)}. Without them, or with another time, the bounds of all others"
                f" may be too low: {helps}, and --without NAME leaves one out"
            )


def check_used(taker: "Taker") -> None:
    """Refuses an option that concerns no frame: it would do nothing, in silence."""
    for option, why in CONCERN.items():
        word = taker.options.has_deadline if option == "deadline" else getattr(taker.options, option)
        if word not in (None, [], False) and option not in taker.used:
            raise Fault(f"--{option.replace('_', '-')} concerns no frame that is taken: {why}")
    for name, _ in taker.options.data_bitrate:
        if name in taker.taken and f"data_bitrate {name}" not in taker.used:
            raise Fault(f"--data-bitrate {name}: {CONCERN['data_bitrate']} on this bus")
    if taker.options.offsets and taker.options.fast:
        raise Fault("--fast: periods on a clock are exact; leave --fast or --offsets out")
    if taker.options.paths and taker.options.deadline is None and not taker.options.deadline_attribute:
        raise Fault("--paths: with --deadline none there is no path; leave one of both out")


def check_lost(taker: "Taker") -> None:
    """Refuses frames of a database that are on no bus, unless --without names them."""
    for bus in taker.buses:
        for name in bus.lost:
            if not any(fnmatch.fnmatchcase(name, pattern) for pattern in taker.options.without):
                raise Fault(
                    f"{bus.file}: frame {name} is on no bus, as nothing triggers it: mend that, or --without"
                    f" {name}. Without it the bounds of all others may be too low"
                )
            taker.report.add(taker.report.left, "on no bus, by --without", name)


def check_buses(taker: "Taker") -> None:
    """Refuses a bus that isn't there."""
    known = {it.name for it in taker.buses}
    for name in taker.options.bus:
        if name not in known:
            raise Fault(f"--bus {name}: there is no such bus; there are {', '.join(sorted(known))}")
