"""Writes files whole, or not at all."""
import contextlib
import os


def bytes_in(file: str) -> bytes | None:
    """What is in a file, or None where there is none, or none that can be read."""
    try:
        with open(file, "rb") as it:
            return it.read()
    except OSError:
        return None


def put_back(file: str, before: bytes | None) -> None:
    """Has a file be as it was before. One that wasn't there goes, or what is in it, where its folder can't be
    written."""
    try:
        if before is None:
            os.unlink(file)
        else:
            with open(file, "wb") as it:
                it.write(before)
    except OSError:
        with contextlib.suppress(OSError):
            os.truncate(file, 0)


def write_whole(file: str | os.PathLike[str], data: bytes) -> None:
    """Writes a file. Where that fails or is interrupted, the file is as it was before; a device or a pipe stays."""
    name = os.fspath(file)
    is_stream = name.startswith(("/dev/fd/", "/dev/std", "/proc/"))
    before = bytes_in(name) if os.path.isfile(name) and not is_stream else None
    it = open(name, "wb")
    try:
        with it:
            it.write(data)
    except BaseException:
        if os.path.isfile(name) and not is_stream:
            put_back(os.path.realpath(name), before)
        raise
