"""Engines for tests, which are skipped where there is none."""
import unittest

from lokwurmi import Library, NoEngine, Program, default_engine
from lokwurmi.calls.engines import Engine


def need_engine(command: str = "analyse") -> None:
    """Skips a test where nothing answers a command."""
    try:
        default_engine(command)
    except NoEngine as fault:
        raise unittest.SkipTest(str(fault))


def both_engines() -> tuple[Library, Program]:
    """The library and the program."""
    try:
        return Library(), Program()
    except NoEngine as fault:
        raise unittest.SkipTest(str(fault))


def some_engines(command: str = "analyse") -> list[Engine]:
    """Those of both that are there and have a command."""
    found: list[Engine] = []
    for kind in (Library, Program):
        try:
            engine = kind()
            if isinstance(engine, Program) or engine.has(command):
                found.append(engine)
        except NoEngine:
            continue
    if not found:
        raise unittest.SkipTest(f"neither a library nor a program has {command}")
    return found
