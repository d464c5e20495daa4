"""Files that are written whole, or not at all: on a disk that is full, for which a limit of their length stands."""
import errno
import os
import resource
import tempfile
import unittest
from collections.abc import Iterator
from contextlib import contextmanager
from pathlib import Path
from unittest import mock

from lokwurmi.files.whole_files import write_whole


@contextmanager
def full_disk() -> Iterator[None]:
    """Leaves room for 100 bytes in each file."""
    soft, hard = resource.getrlimit(resource.RLIMIT_FSIZE)
    resource.setrlimit(resource.RLIMIT_FSIZE, (100, hard))
    try:
        yield
    finally:
        resource.setrlimit(resource.RLIMIT_FSIZE, (soft, hard))


class WholeFiles(unittest.TestCase):
    def refused(self, file: Path) -> None:
        """Such a file is too large, and that is what is told."""
        with full_disk(), self.assertRaises(OSError) as told:
            write_whole(file, bytes(1000))
        self.assertEqual(told.exception.errno, errno.EFBIG)

    def test_no_part(self) -> None:
        shared = "/dev/shm" if os.access("/dev/shm", os.W_OK) else None
        for folder in (None, shared):
            with tempfile.TemporaryDirectory(dir=folder) as room:
                Path(room, "link").symlink_to("file")
                self.refused(Path(room, "file"))
                self.refused(Path(room, "link"))
                self.assertEqual(os.listdir(room), ["link"])

    def test_before(self) -> None:
        """What was in a file stays in it."""
        with tempfile.TemporaryDirectory() as room:
            file, link = Path(room, "file"), Path(room, "link")
            file.write_text("before")
            link.symlink_to("file")
            for one in (file, link):
                self.refused(one)
                self.assertEqual((file.read_bytes(), link.is_symlink()), (b"before", True))

    def test_folder(self) -> None:
        """From a folder that can't be written no file can be taken, but nothing stays in it."""
        with tempfile.TemporaryDirectory() as room, mock.patch("os.unlink", side_effect=PermissionError):
            self.refused(Path(room, "file"))
            self.assertEqual(Path(room, "file").read_bytes(), b"")

    def test_in_place(self) -> None:
        """What is written through a link has the permissions that it had."""
        with tempfile.TemporaryDirectory() as room:
            file, link = Path(room, "file"), Path(room, "link")
            file.write_text("before")
            file.chmod(0o640)
            link.symlink_to("file")
            write_whole(link, b"after")
            self.assertEqual((file.read_bytes(), file.stat().st_mode & 0o777), (b"after", 0o640))
            self.assertTrue(link.is_symlink())


if __name__ == "__main__":
    unittest.main()
