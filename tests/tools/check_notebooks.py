#!/usr/bin/env python3
"""Runs the notebooks of examples/ as plain Python, without Jupyter. Outside the gate; takes some seconds, and no
network.

Each cell runs after those before it, and what it prints and shows is what is kept in the file; of a picture it is held
that there is one. A notebook is as Jupyter wants it: nbformat 4.5.

    python3 -m tests.tools.check_notebooks
    python3 -m tests.tools.check_notebooks --write
"""
import ast
import base64
import contextlib
import io
import json
import os
import sys
from pathlib import Path
from typing import Any

from tests.support.calls import NEEDS_PROGRAM, TOP, built, hold, python_with, reader_of, tell

PYTHON = python_with("canmatrix", "lxml", "matplotlib")
if PYTHON is None:
    sys.exit("a package isn't here: apt-get install python3-canmatrix python3-lxml python3-matplotlib")
if PYTHON != sys.executable:
    os.execv(PYTHON, [PYTHON, *sys.orig_argv[1:]])

Cell = dict[str, Any]
KEYS = {
    "code": {"cell_type", "execution_count", "id", "metadata", "outputs", "source"},
    "markdown": {"cell_type", "id", "metadata", "source"},
}


def shown(value: Any, number: int) -> Cell:
    """A value as a notebook shows it: as a table or as a picture, and as a text."""
    data: dict[str, Any] = {"text/plain": repr(value).splitlines(True)}
    # a figure of matplotlib gives no text
    if hasattr(value, "_repr_html_") and (text := value._repr_html_()):
        data["text/html"] = text.splitlines(True)
    if hasattr(value, "_repr_png_"):
        data["image/png"] = base64.b64encode(value._repr_png_()).decode() + "\n"
    return {"data": data, "execution_count": number, "metadata": {}, "output_type": "execute_result"}


def outputs_of(source: str, names: dict[str, Any], number: int) -> list[Cell]:
    """What a cell prints, and shows of its last line where that is a value."""
    tree = ast.parse(source)
    last = tree.body.pop() if tree.body and isinstance(tree.body[-1], ast.Expr) else None
    room = io.StringIO()
    with contextlib.redirect_stdout(room):
        exec(compile(tree, f"cell {number}", "exec"), names)
        value = eval(compile(ast.Expression(last.value), f"cell {number}", "eval"), names) if last else None
    text = room.getvalue()
    found: list[Cell] = [{"name": "stdout", "output_type": "stream", "text": text.splitlines(True)}] if text else []
    return found if value is None else [*found, shown(value, number)]


def run(cells: list[Cell]) -> None:
    """Runs the cells of a notebook, which get what they print and show."""
    names: dict[str, Any] = {"__name__": "__main__"}
    for number, it in enumerate((it for it in cells if it["cell_type"] == "code"), 1):
        it["outputs"] = outputs_of("".join(it["source"]), names, number)
        it["execution_count"] = number


def without_pictures(cells: list[Cell]) -> list[Cell]:
    """The cells with a word in place of each picture, which depends on the fonts that there are."""
    return json.loads(json.dumps(cells), object_hook=lambda it: it | {"image/png": "-"} if "image/png" in it else it)


def check_form(name: str, notebook: Cell) -> None:
    """The keys that nbformat 4.5 wants, and no others; each cell with an id of its own."""
    hold((notebook["nbformat"], notebook["nbformat_minor"]) == (4, 5), f"{name}: nbformat isn't 4.5")
    cells = notebook["cells"]
    hold(set(notebook) == {"cells", "metadata", "nbformat", "nbformat_minor"}, f"{name}: {set(notebook)}")
    hold(len({it["id"] for it in cells}) == len(cells), f"{name}: two cells have one id")
    for it in cells:
        hold(set(it) == KEYS[it["cell_type"]], f"{name}: cell {it['id']} has the keys {sorted(it)}")
        source = "".join(it["source"])
        hold(
            source.strip() and not source.endswith("\n"),
            f"{name}: cell {it['id']} is empty, or ends with an empty line",
        )
        hold("%" != source[:1] and "!" != source[:1], f"{name}: cell {it['id']} isn't plain Python")


def check_notebook(file: Path, is_written: bool) -> None:
    """A notebook: its form, and what its cells print and show."""
    notebook = json.loads(file.read_text(encoding="utf-8"))
    check_form(file.name, notebook)
    kept = without_pictures(notebook["cells"])
    run(notebook["cells"])
    for before, now in zip(kept, without_pictures(notebook["cells"])):
        hold(is_written or before == now, f"{file.name}: cell {now['id']} shows {now.get('outputs')}: --write keeps it")
    hold(any("image/png" in json.dumps(it) for it in notebook["cells"]), f"{file.name}: there is no chart")
    hold(os.path.getsize(file) < 400_000, f"{file.name}: it is too long")
    if is_written:
        file.write_text(json.dumps(notebook, indent=1, ensure_ascii=False) + "\n", encoding="utf-8")


def main() -> None:
    """Runs all notebooks, from the folder in which each lies, as Jupyter does."""
    reader = reader_of(__doc__, "--write", f"{NEEDS_PROGRAM}, canmatrix and matplotlib")
    reader.add_argument("--write", action="store_true", help="keep what the cells print and show in the notebooks")
    words = reader.parse_args()
    os.environ["LOKWURMI_PROGRAM"] = os.path.abspath(built("cpa_cli"))
    files = sorted((TOP / "examples").rglob("*.ipynb"))
    hold(files, "there is no notebook")
    for file in files:
        os.chdir(file.parent)
        check_notebook(file, words.write)
    tell(f"{len(files)} notebooks: ")


if __name__ == "__main__":
    main()
