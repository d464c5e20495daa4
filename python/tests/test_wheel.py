"""The wheel: of the platform with the library inside, else of pure Python."""
import importlib.util
import re
import shutil
import subprocess
import sys
import sysconfig
import tempfile
import unittest
import zipfile
from pathlib import Path

PACKAGE = Path(__file__).resolve().parents[1]


class Wheels(unittest.TestCase):
    def wheel(self, source: Path, folder: Path) -> tuple[str, list[str]]:
        """The name of the wheel of a source, and what it has of the package."""
        pip = [sys.executable, "-m", "pip", "wheel", "--no-build-isolation", "--no-deps", "--no-index", "--quiet"]
        done = subprocess.run([*pip, str(source), "-w", str(folder)], capture_output=True, text=True)
        self.assertEqual(done.returncode, 0, done.stderr)
        file = next(folder.glob("*.whl"))
        with zipfile.ZipFile(file) as it:
            return file.name, [name for name in it.namelist() if name.startswith("lokwurmi/")]

    def test_tags(self) -> None:
        if any(importlib.util.find_spec(it) is None for it in ("pip", "setuptools", "wheel")):
            raise unittest.SkipTest("pip, setuptools or wheel isn't there")
        platform = re.sub(r"[-.]", "_", sysconfig.get_platform())
        with tempfile.TemporaryDirectory() as room:
            source = Path(room, "python")
            shutil.copytree(
                PACKAGE, source, ignore=shutil.ignore_patterns("build", "*.so", "*.egg-info", "__pycache__")
            )
            library = source / "src/lokwurmi/liblokwurmi.so"
            library.write_bytes(b"\x7fELF")
            name, files = self.wheel(source, Path(room, "one"))
            self.assertRegex(name, rf"^lokwurmi-[\d.]+-py3-none-{platform}\.whl$")
            self.assertIn("lokwurmi/liblokwurmi.so", files)
            self.assertIn("lokwurmi/py.typed", files)
            # what the first build has left isn't taken
            library.unlink()
            name, files = self.wheel(source, Path(room, "two"))
            self.assertRegex(name, r"^lokwurmi-[\d.]+-py3-none-any\.whl$")
            self.assertNotIn("lokwurmi/liblokwurmi.so", files)
            self.assertIn("lokwurmi/model/units.py", files)


if __name__ == "__main__":
    unittest.main()
