"""What there is to say of the frames that are taken from databases, and of words that are wanted."""
from collections.abc import Iterable
from dataclasses import dataclass, field

# how many names there are in a refusal
MOST_KNOWN = 12
# what is said of frames for which a word of the user's is wanted
WANTED = {
    "without_period": (
        "nothing tells how often these come, as they have no cycle time and no least distance",
        "--without-period 100ms gives each such a period, --without-period leave leaves them out",
    ),
    "longer": (
        "these have more bytes than a frame, and the database doesn't tell them to be of CAN FD",
        (
            "mend their length, or tell that they are; --longer leave leaves them out, where a transport protocol sends"
            " them in parts"
        ),
    ),
    "defaults": (
        "the cycle time or least distance of these is the database's default, and one that is lost looks the same",
        "--defaults takes it",
    ),
    "jitter": (
        "these have no {jitter_attribute} of their own, and one that is lost looks the same",
        "--defaults takes the database's default, where it has one, and --jitter TIME gives each such a jitter",
    ),
}
# the options that may concern no frame, and which there would be then
CONCERN = {
    "without_period": "there is none without a period",
    "others": "there is none without a cycle time, and none that is sent on events too without a least distance",
    "longer": "there is none that is longer than a frame",
    "defaults": "there is none whose cycle time, least distance or jitter is a default",
    "multiplexed": "there is none that is multiplexed",
    "data_bitrate": "there is none of CAN FD that switches its rate",
    "offsets": (
        "none that its cycle time alone starts has an offset (GenMsgStartDelayTime, or TIME-OFFSET of ARXML);"
        " --defaults takes the database's default"
    ),
    "jitter": "each has its own by --jitter-attribute",
    "deadline": "each has its own by --deadline-attribute, or none has a path",
}


@dataclass
class ImportNotes:
    """What the reader of a system has to know of where it comes from."""

    heads: list[str] = field(default_factory=list)
    left: dict[str, list[str]] = field(default_factory=dict)
    spared: dict[str, list[str]] = field(default_factory=dict)
    changed: dict[str, list[str]] = field(default_factory=dict)
    assumed: dict[str, list[str]] = field(default_factory=dict)

    def add(self, part: dict[str, list[str]], what: str, name: str = "") -> None:
        part.setdefault(what, []).append(name)

    def lines(self, most: int) -> list[str]:
        """What is to be said, with so many names of a kind at most."""
        found = list(self.heads)
        for head, part in (
            ("left out; the bounds hold while it isn't sent:", self.left),
            ("not in the file, since no bound of what is asked for depends on it:", self.spared),
            ("taken otherwise than the database has it:", self.changed),
            ("assumed:", self.assumed),
        ):
            found += [head, *(kind_line(what, names, most) for what, names in part.items())] if part else []
        return found


def kind_line(what: str, names: list[str], most: int) -> str:
    """What there is to say of some names, of which so many are told at most."""
    if not any(names):
        return f"  {what}"
    more = f" and {len(names) - most} more" if len(names) > most + 1 else ""
    return f"  {what}: {', '.join(names[:most] if more else names)}{more}"


def names_text(names: Iterable[str]) -> str:
    """The names that there are, so many at most."""
    found = sorted(set(names))
    more = f" and {len(found) - MOST_KNOWN} more" if len(found) > MOST_KNOWN else ""
    return f"there are {', '.join(found[:MOST_KNOWN])}{more}" if found else "there is none"
