"""The wheel's tag: that of the platform where liblokwurmi.so is inside, else that of pure Python."""
import sysconfig
from pathlib import Path

from setuptools import Distribution, setup
from setuptools.command.build_py import build_py

try:
    # newer versions of setuptools have it
    from setuptools.command.bdist_wheel import bdist_wheel
except ImportError:
    from wheel.bdist_wheel import bdist_wheel

LIBRARY = Path(__file__).resolve().parent / "src/lokwurmi/liblokwurmi.so"


class BuildPy(build_py):
    """Leaves no library of an earlier build in the folder of the build."""

    def run(self) -> None:
        stale = Path(self.build_lib) / "lokwurmi" / LIBRARY.name
        if not LIBRARY.exists() and stale.exists():
            stale.unlink()
        super().run()


class Package(Distribution):
    """A package with the library isn't pure Python."""

    def has_ext_modules(self) -> bool:
        return LIBRARY.exists()


class Wheel(bdist_wheel):
    """A wheel with the library is for any Python 3 of one platform."""

    def get_tag(self) -> tuple[str, str, str]:
        platform = sysconfig.get_platform().replace("-", "_").replace(".", "_")
        return "py3", "none", platform if LIBRARY.exists() else "any"


setup(distclass=Package, cmdclass={"build_py": BuildPy, "bdist_wheel": Wheel})
