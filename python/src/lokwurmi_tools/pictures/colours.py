"""The colours of paths and tasks: along a path one that gets lighter, and for a source that of the path behind it."""
from lokwurmi.model.view import SystemView

# those of paths, and paler ones for what is on none
HUES = [
    "#1b6ca8",
    "#b5541c",
    "#2e7d4f",
    "#7b4fa3",
    "#a3862a",
    "#a83254",
    "#2a8c8c",
    "#5b6770",
    "#8c5a2a",
    "#4f63c9",
    "#6f8c1f",
    "#c04f9b",
]
PALE = ["#8fa9bd", "#c2a38c", "#9dbd9a", "#b3a3c9", "#cdbb7a", "#c79aa8", "#8fbcbc", "#a7adb2"]
# the ink and the paper of a picture, and what is faint in it
INK, PAPER, FAINT = "#1c2733", "#fefefe", "#9aa5b1"
# letters on a dark colour, and on a pale one
ON_DARK, ON_PALE = "#ffffff", "#18222d"


def parts_of(colour: str) -> list[int]:
    return [int(colour[place : place + 2], 16) for place in (1, 3, 5)]


def lighter(colour: str, share: float) -> str:
    """The colour with a share of white."""
    return "#" + "".join(f"{round(it + (255 - it) * share):02x}" for it in parts_of(colour))


def letters_on(colour: str) -> str:
    red, green, blue = parts_of(colour)
    return ON_DARK if 0.299 * red + 0.587 * green + 0.114 * blue < 150 else ON_PALE


def hues(view: SystemView) -> dict[str, str]:
    """The colour of each task that is on a path: that of the first such path."""
    found: dict[str, str] = {}
    for place, path in enumerate(view.paths.values()):
        for name in path.tasks:
            found.setdefault(name, HUES[place % len(HUES)])
    return found


def shades(view: SystemView) -> dict[str, str]:
    """A colour a task: along a path that of the path, lighter from task to task; tasks on none take turns with paler
    ones."""
    found: dict[str, str] = {}
    hue, others = hues(view), 0
    for path in view.paths.values():
        for place, name in enumerate(path.tasks):
            found.setdefault(name, lighter(hue[name], min(0.14 * place, 0.56)))
    for name in view.tasks:
        if name not in found:
            found[name] = lighter(PALE[others % len(PALE)], 0.22 * (others // len(PALE) % 3))
            others += 1
    return found


def hues_of_sources(view: SystemView) -> dict[str, str]:
    """A colour a source: that of the first path that begins behind it, or a paler one."""
    found: dict[str, str] = {}
    for place, path in enumerate(view.paths.values()):
        for before in view.tasks[path.tasks[0]].after:
            found.setdefault(before, HUES[place % len(HUES)])
    others = [name for name in view.sources if name not in found]
    return found | {name: PALE[place % len(PALE)] for place, name in enumerate(others)}
