# SPDX-License-Identifier: Apache-2.0 OR BSD-3-Clause
"""What setuptools does not do by itself: a wheel has the library of the devices, and the bytes of wheels and sources do
not depend on when, where and by whom they are written.

The library is the file that SUPERIO_LIBRARY names, or else the one in `prebuilt` for the processor that Python builds
for. It needs no version of a C library, only `memcpy` and `memmove` from any, so its wheel has the tags of all of them.
"""
import atexit
import gzip
import io
import os
import re
import shutil
import sysconfig
import tarfile
import tempfile
from pathlib import Path

from setuptools import Distribution, setup
from setuptools.command.build_py import build_py
from setuptools.command.sdist import sdist

try:
    from setuptools.command.bdist_wheel import bdist_wheel
except ImportError:
    try:
        from wheel.bdist_wheel import bdist_wheel
    except ImportError:  # pip asks what a wheel needs before it installs that
        bdist_wheel = None

HERE = Path(__file__).resolve().parent
# The folder of the sources alone, or the repository.
ROOT = HERE if (HERE / "prebuilt").is_dir() else HERE.parents[1]
ABI = re.match(r"abi (\d+)\n", (HERE / "superio" / "superio.abi").read_text(encoding="ascii"))[1]
LIBRARY = f"libsuperio.so.{ABI}"
NAMED = os.environ.get("SUPERIO_LIBRARY")
MACHINE = sysconfig.get_platform().partition("-")[2]
TAGS = ".".join(f"{kind}_{MACHINE}" for kind in ("manylinux_2_17", "manylinux2014", "musllinux_1_1"))
# What the sources have of the repository: the libraries, and what their tests read.
SHARED = [*sorted(path.relative_to(ROOT) for path in ROOT.glob(f"prebuilt/*-linux/{LIBRARY}")),
          *map(Path, ("examples/three_devices.script", "examples/linux-boot/boot.recording.xz"))]
# The first moment that an archive of zip knows, if no other is given.
os.environ.setdefault("SOURCE_DATE_EPOCH", "315532800")


class WithLibrary(Distribution):
    """Has no extension, but is for one processor as if it had."""

    def has_ext_modules(self):
        return True


class BuildWithLibrary(build_py):
    """Puts the library beside the modules. An installation that can be edited finds the one in `prebuilt`."""

    def run(self):
        super().run()
        if getattr(self, "editable_mode", False):
            return
        path = Path(NAMED or ROOT / "prebuilt" / f"{MACHINE}-linux" / LIBRARY)
        if not path.is_file():
            raise SystemExit(f"{path} is not there: set SUPERIO_LIBRARY to the path of {LIBRARY}")
        shutil.copyfile(path, Path(self.build_lib, "superio", LIBRARY))


class SameSources(sdist):
    def run(self):
        # Else each file that the list of a build before has, and that is still there, would be among them.
        Path(self.get_finalized_command("egg_info").egg_info, "SOURCES.txt").unlink(missing_ok=True)
        super().run()

    def make_release_tree(self, base_dir, files):
        super().make_release_tree(base_dir, files)
        for name in SHARED:
            place = Path(base_dir, name)
            place.parent.mkdir(parents=True, exist_ok=True)
            shutil.copyfile(ROOT / name, place)

    def make_archive(self, base_name, format, base_dir=None, **options):
        moment, plain = int(os.environ["SOURCE_DATE_EPOCH"]), io.BytesIO()
        with tarfile.open(fileobj=plain, mode="w", format=tarfile.PAX_FORMAT) as archive:
            for path in sorted(path for path in Path(base_dir).rglob("*") if path.is_file()):
                member = tarfile.TarInfo(path.as_posix())
                member.size, member.mode, member.mtime = path.stat().st_size, 0o644, moment
                archive.addfile(member, io.BytesIO(path.read_bytes()))
        place = Path(f"{base_name}.tar.gz")
        place.parent.mkdir(parents=True, exist_ok=True)
        place.write_bytes(gzip.compress(plain.getvalue(), mtime=moment))
        return str(place)


commands = {"build_py": BuildWithLibrary, "sdist": SameSources}
if bdist_wheel:
    class PlatformWheel(bdist_wheel):
        """A wheel for every Python 3, and for one processor."""

        def get_tag(self):
            return "py3", "none", super().get_tag()[2] if NAMED else TAGS

        def write_wheelfile(self, *arguments, **options):
            """Is called when all files are there, and before they are packed."""
            super().write_wheelfile(*arguments, **options)
            for path in Path(self.bdist_dir).rglob("*"):
                path.chmod(0o755 if path.is_dir() else 0o644)

    commands["bdist_wheel"] = PlatformWheel

# No file of a build before gets into a wheel.
built = tempfile.TemporaryDirectory()
atexit.register(built.cleanup)
setup(distclass=WithLibrary, cmdclass=commands, options={"build": {"build_base": built.name}})
