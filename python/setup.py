"""The parts of the build that pyproject.toml cannot say: the version, and the shared object of this machine.

    pip wheel --no-build-isolation --no-deps .

The version is that of HIVEVIGIL_VERSION, else of the file VERSION of the checkout. The shared object is the one in the
package, else the one that HIVEVIGIL_SO names, else that of lib/ of the checkout.
"""
import os
import re
import shutil
import subprocess
from pathlib import Path

from setuptools import setup
from setuptools.command.build_py import build_py
from setuptools.dist import Distribution

try:
    from setuptools.command.bdist_wheel import bdist_wheel
except ImportError:  # before setuptools 70
    from wheel.bdist_wheel import bdist_wheel

HERE = Path(__file__).resolve().parent
NAME = "libhivevigil.so"
# what every machine with glibc has
OF_GLIBC = {"libc.so.6", "libm.so.6", "libdl.so.2", "librt.so.1", "libpthread.so.0", "ld-linux-x86-64.so.2"}


def version():
    file = HERE.parent / "VERSION"
    return os.environ.get("HIVEVIGIL_VERSION") or (file.read_text().strip() if file.exists() else "0.0.0")


def shared_object():
    named = os.environ.get("HIVEVIGIL_SO")
    places = [HERE / "hivevigil" / NAME, *([Path(named)] if named else []), HERE.parent / "lib" / NAME]
    for place in places:
        if place.exists():
            return place
    raise SystemExit(f"no {NAME}: looked for {', '.join(map(str, places))}; `sh examples/build.sh` makes it")


def glibc_of(path):
    """The first version of glibc that has all that the shared object needs, as "2_14"; None where it needs another
    library too, or where readelf does not say."""
    asked, in_english = ["readelf", "--wide", "--dynamic", "--version-info", str(path)], {**os.environ, "LC_ALL": "C"}
    try:
        said = subprocess.run(asked, capture_output=True, text=True, check=True, env=in_english).stdout
    except (OSError, subprocess.CalledProcessError):
        return None
    needed = set(re.findall(r"Shared library: \[(.*?)\]", said))
    versions = [(int(major), int(minor)) for major, minor in re.findall(r"\bGLIBC_(\d+)\.(\d+)", said)]
    return "{}_{}".format(*max(versions)) if versions and needed <= OF_GLIBC else None


class Build(build_py):
    def run(self):
        super().run()
        target = Path(self.build_lib, "hivevigil", NAME)
        target.parent.mkdir(parents=True, exist_ok=True)
        shutil.copyfile(shared_object(), target)


class Platform(Distribution):
    """A package with a shared object belongs to one machine."""

    def has_ext_modules(self):
        return True


class Wheel(bdist_wheel):
    """For every Python, since the shared object is linked with none, and for every machine whose glibc is at least what
    it needs."""

    def get_tag(self):
        platform, glibc = super().get_tag()[2], glibc_of(shared_object())
        return "py3", "none", re.sub("^linux_", f"manylinux_{glibc}_", platform) if glibc else platform


setup(version=version(), distclass=Platform, cmdclass={"build_py": Build, "bdist_wheel": Wheel})
