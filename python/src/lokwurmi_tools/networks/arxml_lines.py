"""Reads what an ARXML file says of frames beside canmatrix, for lokwurmi import network: which are triggered, by which
identifiers, and how often their data units are sent."""
import re
from collections.abc import Iterator
from fractions import Fraction
from typing import Any, NamedTuple

from lokwurmi.model.limits import MOST_PRIORITY, MOST_SHORT
from lokwurmi_tools.shared.faults import Fault

TOO_LOW = "Without it the bounds of all other frames may be too low"
SECONDS = re.compile(r"\d+(?:\.\d+)?(?:[eE][-+]?\d+)?|\.\d+(?:[eE][-+]?\d+)?")
# what is in a data unit that isn't sent by one period alone, without tolerance
_UNSTEADY = (
    "EVENT-CONTROLLED-TIMING",
    "REQUEST-CONTROLLED-TIMING",
    "TRANSMISSION-MODE-FALSE-TIMING",
    "ABSOLUTE-TOLERANCE",
    "RELATIVE-TOLERANCE",
)

# of which type a frame is where it is sent, and where it is received
_BEHAVIOURS = {"CAN-FRAME-TX-BEHAVIOR": ("CAN-20", "CAN-FD"), "CAN-FRAME-RX-BEHAVIOR": ("CAN-20", "CAN-FD", "ANY")}


def text_of(element: Any, key: str) -> str | None:
    """The text of a child, or None where there is no such child."""
    found = element.find(f"{{*}}{key}")
    return None if found is None else str(found.text or "").strip()


def paths_of(root: Any) -> dict[str, Any]:
    """The elements with a name, by their paths, as references have them."""
    found: dict[str, Any] = {}
    rest = [(root, "")]
    while rest:
        element, before = rest.pop()
        name = text_of(element, "SHORT-NAME")
        path = f"{before}/{name}" if name else before
        if name:
            found.setdefault(path, element)
        rest += [(child, path) for child in element if isinstance(child.tag, str)]
    return found


class Triggered(NamedTuple):
    """A frame of a cluster, by its triggering; times are in seconds."""

    name: str
    number: int
    is_long: bool  # whether its identifier has 29 bits
    size: int
    period: Fraction  # the shortest; 0 where none is told
    offset: str | None  # when it begins, where one period alone starts it
    senders: list[str]
    is_flexible: bool  # whether it is one of CAN FD
    switches: bool | None  # whether that switches its bit rate; None where none tells


class ArxmlFrames:
    """The frames that the clusters of a file trigger."""

    def __init__(self, file: str, root: Any):
        self.file, self.root = file, root
        self.paths = paths_of(root)
        self.stations = [text_of(it, "SHORT-NAME") for it in root.iter("{*}ECU-INSTANCE")]

    def fault(self, element: Any, says: str) -> Fault:
        return Fault(f"{self.file}: line {element.sourceline}: {says}")

    def identifier_of(self, element: Any, what: str) -> tuple[int, bool]:
        """The identifier of a triggered frame, and whether it has 29 bits."""
        number, mode = text_of(element, "IDENTIFIER"), text_of(element, "CAN-ADDRESSING-MODE")
        if number is None or not number.isascii() or not number.isdecimal():
            says = f"{what} has the identifier {number or 'none'}: give it IDENTIFIER, a decimal number. {TOO_LOW}"
            raise self.fault(element, says)
        if mode not in (None, "STANDARD", "EXTENDED"):
            raise self.fault(element, f"{what}: CAN-ADDRESSING-MODE is {mode}: it is STANDARD or EXTENDED")
        most = MOST_PRIORITY if mode == "EXTENDED" else MOST_SHORT
        if int(number) > most:
            helps = "" if mode == "EXTENDED" else ", unless CAN-ADDRESSING-MODE is EXTENDED"
            raise self.fault(element, f"{what} has the identifier {number}, and {most} is the most{helps}")
        return int(number), mode == "EXTENDED"

    def referred(self, element: Any, what: str) -> Any:
        """What a reference names."""
        path = str(element.text or "").strip()
        if path not in self.paths:
            tag = element.tag.rpartition("}")[2]
            raise self.fault(
                element, f"{what} is triggered, and isn't read: {tag} names {path}, which isn't there. {TOO_LOW}"
            )
        return self.paths[path]

    def periods_of(self, units: list[Any], what: str) -> Iterator[Fraction]:
        """The periods of some data units, in seconds."""
        for it in (it for unit in units for it in unit.iter("{*}TIME-PERIOD", "{*}REPEATING-TIME")):
            word = text_of(it, "VALUE")
            if word is None or not SECONDS.fullmatch(word):
                raise self.fault(it, f"{what}: its period is {word or 'empty'}: VALUE is a number of seconds, as 0.02")
            yield Fraction(word)

    def units_of(self, frame: Any, what: str) -> list[Any]:
        """The data units of a frame, with those that are within others."""
        found, rest = [], [self.referred(it, what) for it in frame.iter("{*}PDU-REF")]
        while rest:
            unit = rest.pop()
            if unit not in found:
                found.append(unit)
                inner = [it for it in unit.iter("{*}I-PDU-REF", "{*}STATIC-PART-REF") if it.text]
                rest += [self.paths[it.text.strip()] for it in inner if it.text.strip() in self.paths]
        return found

    def offset_of(self, units: list[Any]) -> str | None:
        """When the only data unit of a frame is first sent, as the file has it, in seconds; None where that isn't told,
        or where it isn't sent by one period alone, which has no tolerance."""
        timings = [it for unit in units for it in unit.iter("{*}CYCLIC-TIMING")]
        if len(units) != 1 or len(timings) != 1 or list(units[0].iter(*(f"{{*}}{it}" for it in _UNSTEADY))):
            return None
        if len(list(timings[0].iter("{*}TIME-PERIOD", "{*}REPEATING-TIME"))) != 1:
            return None
        starts = list(timings[0].iter("{*}TIME-OFFSET", "{*}STARTING-TIME"))
        return (text_of(starts[0], "VALUE") or "empty") if len(starts) == 1 else None

    def stations_of(self, triggering: Any) -> Iterator[tuple[str, Any]]:
        """The ports out of which a frame goes, by their paths, each with its station."""
        for it in triggering.iter("{*}FRAME-PORT-REF"):
            path = str(it.text or "").strip()
            port = self.paths.get(path)
            if port is not None and text_of(port, "COMMUNICATION-DIRECTION") == "OUT":
                yield from ((path, station) for station in port.iterancestors("{*}ECU-INSTANCE"))

    def senders_of(self, triggering: Any) -> list[str]:
        """The stations out of whose ports a frame goes; two of one name by their paths."""
        found = []
        for path, station in self.stations_of(triggering):
            name = text_of(station, "SHORT-NAME") or path
            found.append(name if self.stations.count(name) == 1 else path)
        return list(dict.fromkeys(found))

    def truth_of(self, element: Any, what: str) -> bool:
        """What an element says that is true or false."""
        word, key = str(element.text or "").strip(), element.tag.rpartition("}")[2]
        if word.lower() not in ("true", "1", "false", "0"):
            raise self.fault(element, f"{what}: {key} is {word or 'empty'}: it is true or false")
        return word.lower() in ("true", "1")

    def is_flexible(self, triggering: Any, what: str) -> bool:
        """Whether a triggered frame is one of CAN FD: as it is sent, where that is told."""
        behaviour, received = (self.behaviour_of(triggering, it, what) for it in _BEHAVIOURS)
        support = triggering.find("{*}CAN-FD-FRAME-SUPPORT")
        is_supported = support is not None and self.truth_of(support, what)
        if received == "ANY" and behaviour is None and not is_supported and self.has_fd(triggering):
            says = f"{what}: CAN-FRAME-RX-BEHAVIOR is ANY: whether it is one of CAN FD is told by CAN-FRAME-TX-BEHAVIOR"
            raise self.fault(triggering, says)
        return behaviour == "CAN-FD" if behaviour else is_supported or received == "CAN-FD"

    def behaviour_of(self, triggering: Any, key: str, what: str) -> str | None:
        """Of which type a frame is where it is sent, or where it is received, or None where that isn't told."""
        word = text_of(triggering, key)
        if word not in (None, *_BEHAVIOURS[key]):
            raise self.fault(triggering, f"{what}: {key} is {word or 'empty'}: it is {' or '.join(_BEHAVIOURS[key])}")
        return word

    def has_fd(self, triggering: Any) -> bool:
        """Whether the cluster of a frame has frames of CAN FD: it has a bit rate of their data phase."""
        clusters = triggering.iterancestors("{*}CAN-CLUSTER")
        return any(it.find(".//{*}CAN-FD-BAUDRATE") is not None for it in clusters)

    def controllers_of(self, triggering: Any) -> Iterator[Any]:
        """The controllers by which a frame goes out, or their stations where a connector names none: one has a
        controller for each of its buses."""
        for path, station in self.stations_of(triggering):
            connectors = self.paths[path].iterancestors("{*}CAN-COMMUNICATION-CONNECTOR")
            named = (self.paths.get(text_of(it, "COMM-CONTROLLER-REF") or "") for it in connectors)
            yield next((it for it in named if it is not None), station)

    def switches_of(self, triggering: Any, what: str) -> bool | None:
        """Whether a frame of CAN FD switches its bit rate: as the controllers that send it say, or all where none is
        named; None where none tells."""
        controllers = list(self.controllers_of(triggering))
        elements = [it for one in controllers or [self.root] for it in one.iter("{*}TX-BIT-RATE-SWITCH")]
        told = {self.truth_of(it, what) for it in elements}
        if len(told) > 1:
            which = (
                "controllers that send it differ" if controllers else "it goes out of no port, and controllers differ"
            )
            raise self.fault(triggering, f"{what}: {which} in TX-BIT-RATE-SWITCH, and its best and worst with them")
        return told.pop() if told else None

    def triggerings(self, cluster: Any) -> Iterator[Triggered]:
        """The frames of a cluster."""
        for it in cluster.iter("{*}CAN-FRAME-TRIGGERING"):
            path = text_of(it, "FRAME-REF")
            name = (path or text_of(it, "SHORT-NAME") or "").rsplit("/", 1)[-1]
            what = f"frame {name} of bus {text_of(cluster, 'SHORT-NAME')}"
            number, is_long = self.identifier_of(it, what)
            size, period, offset = 0, Fraction(0), None
            if path is not None:
                frame = self.referred(it.find("{*}FRAME-REF"), what)
                word = text_of(frame, "FRAME-LENGTH")
                if word is None or not word.isdecimal():
                    raise self.fault(
                        frame, f"{what} has the length {word or 'none'}: FRAME-LENGTH is a number of bytes"
                    )
                size = int(word)
                units = self.units_of(frame, what)
                period = min((at for at in self.periods_of(units, what) if at), default=Fraction(0))
                offset = self.offset_of(units)
            is_flexible = self.is_flexible(it, what)
            switches = self.switches_of(it, what) if is_flexible else None
            yield Triggered(name, number, is_long, size, period, offset, self.senders_of(it), is_flexible, switches)

    def lost(self) -> list[str]:
        """The frames of the file that nothing triggers; one that is triggered beside the clusters is refused."""
        for it in self.root.iter("{*}CAN-FRAME-TRIGGERING"):
            if not any(
                isinstance(above.tag, str) and above.tag.endswith("}CAN-CLUSTER") for above in it.iterancestors()
            ):
                name = text_of(it, "SHORT-NAME")
                raise self.fault(it, f"frame triggering {name} is in no CAN-CLUSTER, and isn't read. {TOO_LOW}")
        refs = [it for it in self.root.iter("{*}FRAME-REF") if it.getparent().tag.endswith("TRIGGERING")]
        triggered = {str(it.text or "").strip() for it in refs}
        frames = {path for path, it in self.paths.items() if it.tag.rpartition("}")[2] in ("CAN-FRAME", "FRAME")}
        return sorted(path.rsplit("/", 1)[-1] for path in frames - triggered)
