"""The system file of databases of networks, with what there is to say of it: for lokwurmi import network."""
import sys
from fractions import Fraction

from lokwurmi.model.formats import least_format
from lokwurmi_tools.networks.buses import START, Bus
from lokwurmi_tools.networks.databases import read_buses
from lokwurmi_tools.networks.fit_to_limits import SystemEntries, check_size, system_of
from lokwurmi_tools.networks.frames_to_tasks import Taker
from lokwurmi_tools.networks.import_notes import ImportNotes
from lokwurmi_tools.networks.network_options import NetworkOptions
from lokwurmi_tools.shared.faults import Fault
from lokwurmi_tools.shared.times import text_of
from lokwurmi_tools.shared.written_entries import comment, comments, entry, put_and_tell, with_values

# how many names of a kind a line of the report has on the standard error; in the file it has all
MOST_NAMES = 12


def forwards_of(words: list[str], buses: list[Bus]) -> dict[str, str]:
    """What each frame comes after that a gateway passes on."""
    known = {it.name for bus in buses for it in bus.frames}
    found: dict[str, str] = {}
    for word in words:
        names = word.split("=")
        if len(names) != 2:
            raise Fault(f"--forward {word}: write it as FROM=TO, two frames")
        for it in names:
            if it not in known:
                raise Fault(
                    f"--forward {word}: there is no frame {it}; a frame of several buses is named as in the system,"
                    " BUS.FRAME"
                )
        if names[1] in found:
            raise Fault(
                "--forward: two frames are passed on as one; a task of several activators has to be written by hand"
                " (format 2)"
            )
        found[names[1]] = names[0]
        at, way = names[1], set()
        while at in found and at not in way:
            way.add(at)
            at = found[at]
        if at in way:
            raise Fault(f"--forward: {at} is forwarded in a ring")
    return found


def text_in(system: SystemEntries, report: ImportNotes, tick: Fraction) -> str:
    """The system file."""
    told = [f"Written by lokwurmi import network. A tick is {text_of(tick)}.", *report.lines(sys.maxsize)]
    lines = [part for it in told for part in comments(it)] + [comment(it) for it in system.rules]
    parts = {"resource": system.resources, "source": system.sources, "task": system.tasks, "path": system.paths}
    lines.append(f"format = {least_format({key: map(with_values, entries) for key, entries in parts.items()})}")
    for key, entries in parts.items():
        notes = system.notes if key == "task" else {}
        lines += [f"{key} = [", *(f"  {entry(it)},{notes.get(it['name'], '')}" for it in entries), "]"]
    return "\n".join(lines) + "\n"


def write_network(options: NetworkOptions) -> None:
    """Writes the system of some databases, and tells what there is to say of it."""
    attributes = [it for it in (options.jitter_attribute, options.deadline_attribute) if it]
    attributes += [START] if options.offsets else []
    buses = read_buses(options.database, attributes)
    taker = Taker(buses, options, forwards_of(options.forward, buses))
    taker.all()
    system = system_of(taker)
    check_size(system, taker, MOST_NAMES)
    put_and_tell(text_in(system, taker.report, options.tick), options.to, taker.report.lines(MOST_NAMES))
