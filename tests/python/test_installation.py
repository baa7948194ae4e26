# SPDX-License-Identifier: Apache-2.0 OR BSD-3-Clause
"""The package as an index and pip take it, and the library that it finds."""
import ctypes
import os
import re
import shutil
import stat
import sys
import tarfile
import time
import zipfile
from pathlib import Path

import pytest
from generators.header import read_header
from harness import ROOT, at_least
from support import ENVIRONMENT, PACKAGE, TIMEOUT, ended

import superio
from superio import LibraryError, library, registers
from superio.saved import SAVED_STATE_ERRORS

CLEAN = {**{name: value for name, value in ENVIRONMENT.items() if name not in ("PYTHONPATH", library.VARIABLE)},
         "PIP_DISABLE_PIP_VERSION_CHECK": "1", "PIP_NO_INDEX": "1", "PIP_NO_BUILD_ISOLATION": "0"}
LIBRARY = library.open_library()._name
BUILD = "from setuptools import build_meta; import sys; print(getattr(build_meta, sys.argv[1])(sys.argv[2]))"
PYTHON = "/usr/bin/python3"   # which has what a build needs, as Debian's packages have it: no test asks a network
MACHINES = sorted(path.parent.name.partition("-")[0] for path in ROOT.glob(f"prebuilt/*-linux/{library.FILE_NAME}"))
FIRST_OF_ZIP = 315_532_800   # the first second of 1980
TAGS = "manylinux_2_17_{0}.manylinux2014_{0}.musllinux_1_1_{0}"


def environment(folder):
    """The Python of a fresh virtual environment. It has no pip, which takes time: the system's pip serves it, and so does
    what a build needs."""
    done = ended([PYTHON, "-m", "venv", "--without-pip", "--system-site-packages", folder], env=CLEAN)
    if done[0]:
        raise OSError(done[2])
    return folder / "bin" / "python3"


def copied(folder, mode=0o644):
    """The package in a folder with what of the repository it is built of, all with one mode."""
    place = folder / "bindings" / "python"
    ignored = shutil.ignore_patterns("__pycache__", "*.egg-info", "dist")
    for name in ("bindings/python", "LICENSES", "prebuilt", "examples/linux-boot"):
        shutil.copytree(ROOT / name, folder / name, symlinks=True, ignore=ignored)
    shutil.copy(ROOT / "examples" / "three_devices.script", folder / "examples")
    for path in folder.rglob("*"):
        if path.is_file() and not path.is_symlink():
            path.chmod(mode)
    return place


needs_python = pytest.mark.needs("pip")


class Archives:
    """The sources, and a wheel for each processor of `prebuilt`."""

    def __init__(self, folder):
        self.folder, self.place, self.made = folder, copied(folder / "one"), folder / "made"
        self.sources = self.build("build_sdist", self.place, self.made)
        self.wheels = {machine: self.build("build_wheel", self.place, self.made,
                                           _PYTHON_HOST_PLATFORM=f"linux-{machine}") for machine in MACHINES}
        with tarfile.open(self.sources) as archive:
            archive.extractall(folder)
        self.unpacked = folder / self.sources.name[:-len(".tar.gz")]

    @staticmethod
    def build(kind, place, into, **variables):
        """Writes a wheel or the sources, as pip would have it done, and gives the path."""
        into.mkdir(exist_ok=True)
        status, printed, errors = ended([PYTHON, "-c", BUILD, kind, into], cwd=place, env={**CLEAN, **variables})
        if status:
            raise OSError(errors)
        return into / printed.splitlines()[-1]


@pytest.fixture(scope="module")
def archives(tmp_path_factory):
    return Archives(tmp_path_factory.mktemp("archives"))


@needs_python
@pytest.mark.needs("twine")
def test_an_index_takes_them(archives):
    done = ended(["twine", "--no-color", "check", "--strict", archives.sources, *archives.wheels.values()], env=CLEAN)
    assert (done[0], done[1].count("PASSED")) == (0, 1 + len(MACHINES)), done


@needs_python
@pytest.mark.parametrize("machine", at_least(2, MACHINES))
def test_wheel(archives, machine):
    path, info = archives.wheels[machine], f"superio-{superio.__version__}.dist-info"
    assert path.name == f"superio-{superio.__version__}-py3-none-{TAGS.format(machine)}.whl"
    with zipfile.ZipFile(path) as wheel:
        for file in wheel.infolist():
            # setuptools writes RECORD itself, and the group may write that.
            mode = 0o664 if file.filename == f"{info}/RECORD" else 0o644
            assert (file.compress_type, stat.S_IMODE(file.external_attr >> 16)) == (zipfile.ZIP_DEFLATED, mode), file
        library_of_it = (ROOT / "prebuilt" / f"{machine}-linux" / library.FILE_NAME).read_bytes()
        assert wheel.read(f"superio/{library.FILE_NAME}") == library_of_it
        for name, kept in ("APACHE", "Apache-2.0"), ("BSD", "BSD-3-Clause"):
            assert wheel.read(f"{info}/LICENSE-{name}") == (ROOT / "LICENSES" / f"{kept}.txt").read_bytes()
        said, names = wheel.read(f"{info}/METADATA").decode(), set(wheel.namelist())
        assert "\nRoot-Is-Purelib: false\n" in wheel.read(f"{info}/WHEEL").decode()
    modules = {f"superio/{file.name}" for file in (PACKAGE / "superio").glob("*.py")}
    own = {f"superio/{name}" for name in ("py.typed", "superio.abi", library.FILE_NAME)}
    assert {name for name in names if not name.startswith(info)} == modules | own
    assert "\nRequires-Python: >=3.8\n" in said
    assert re.findall(r"\]\((?!https?://)[^)]*\)", said) == [], "links that an index cannot follow"


def build_another_before(place, into, variables):
    """Builds in a folder what was there once: with a module that is gone, and with more tests in the sources."""
    module, listed = place / "superio" / "gone.py", place / "MANIFEST.in"
    kept = listed.read_bytes()
    module.touch()
    listed.write_bytes(kept + b"graft tests\n")
    for kind in ("build_sdist", "build_wheel"):
        Archives.build(kind, place, into, **variables)
    module.unlink()
    listed.write_bytes(kept)


@needs_python
def test_others_make_the_same_bytes(archives):
    """With other modes and another time zone, at another time, in another folder, where something else was built before,
    and from the sources alone."""
    other, into = copied(archives.folder / "another place", 0o600), archives.folder / "again"
    variables = {"TZ": "Asia/Tokyo", "LC_ALL": "C", "_PYTHON_HOST_PLATFORM": f"linux-{MACHINES[0]}"}
    build_another_before(other, archives.folder / "before", variables)
    before, wheel = os.umask(0o077), archives.wheels[MACHINES[0]]
    try:
        for kind, place, made in (("build_sdist", other, archives.sources), ("build_wheel", other, wheel),
                                  ("build_sdist", archives.unpacked, archives.sources),
                                  ("build_wheel", archives.unpacked, wheel)):
            again = archives.build(kind, place, into, **variables)
            assert (again.name, again.read_bytes()) == (made.name, made.read_bytes()), place
    finally:
        os.umask(before)


@needs_python
def test_sources_do_not_tell_who_made_them(archives):
    """Each file has the same owner, mode and time, and the archive names no file of its own."""
    with tarfile.open(archives.sources) as archive:
        owners = {(file.uid, file.gid, file.uname, file.gname, file.mode, file.mtime, file.type) for file in archive}
    assert owners == {(0, 0, "", "", 0o644, FIRST_OF_ZIP, tarfile.REGTYPE)}
    assert archives.sources.read_bytes()[3:8] == b"\0" + FIRST_OF_ZIP.to_bytes(4, "little"), "flags, and the time"


@needs_python
def test_a_time_that_is_given(archives):
    """As a distribution gives one: each file of the sources and of a wheel has it."""
    made, given = archives.folder / "at a time", {"SOURCE_DATE_EPOCH": str(10 ** 9)}
    with tarfile.open(archives.build("build_sdist", archives.place, made, **given)) as sources:
        assert {file.mtime for file in sources} == {10 ** 9}
    with zipfile.ZipFile(archives.build("build_wheel", archives.place, made, **given)) as wheel:
        assert {file.date_time for file in wheel.infolist()} == {time.gmtime(10 ** 9)[:6]}


@needs_python
@pytest.mark.parametrize("what", ["wheel", "sources", "folder", "editable folder"])
def test_installed_by_pip(archives, what, tmp_path):
    """Into a fresh environment."""
    wheel = archives.wheels[os.uname().machine]
    words = {"wheel": [wheel], "sources": [archives.sources], "folder": [archives.place],
             "editable folder": ["-e", archives.place]}[what]
    python = environment(tmp_path / "environment")
    done = ended([python, "-m", "pip", "--quiet", "install", *words], env=CLEAN, cwd="/")
    assert done[0] == 0, done
    said = ended([python, "-m", "superio", "--shell"], b"read LSR\n", cwd="/", env=CLEAN)
    assert said == (0, "LSR = 0x60  THRE TEMT\n", "")
    found = ended([python, "-c", "import superio; print(superio.__file__)"], cwd="/", env=CLEAN)[1]
    assert Path(found).is_relative_to(archives.place) == ("-e" in words), found


@needs_python
@pytest.mark.parametrize("python", [sys.executable, pytest.param("python3.8", marks=pytest.mark.where("Python 3.8"))])
def test_the_sources_have_tests_that_pass(archives, python):
    """With other random calls for each commit, and also with the oldest Python that the package is for."""
    done = ended([python, "-m", "unittest", "discover", "tests"], cwd=archives.unpacked, env=CLEAN, timeout=TIMEOUT)
    ran = re.search(r"\nRan (\d+) tests in .*\n\nOK \(skipped=2\)\n$", done[2])
    assert ran and int(ran[1]) >= 100, done


@needs_python
def test_a_wheel_with_another_library(archives, tmp_path):
    """It has only the tag of the machine: nobody knows what the library needs."""
    path = archives.build("build_wheel", archives.place, tmp_path / "named", **{library.VARIABLE: LIBRARY})
    assert path.name.endswith(f"-py3-none-linux_{os.uname().machine}.whl")
    with pytest.raises(OSError, match="/nowhere/lib.so is not there: set SUPERIO_LIBRARY"):
        archives.build("build_wheel", archives.place, tmp_path / "none", **{library.VARIABLE: "/nowhere/lib.so"})
    assert [*(tmp_path / "none").iterdir()] == []


# Where the package finds a library, by the words of its page, which are in the order in which it looks.
FOUND = re.findall(r"^\d\. (.*)$", re.search(r"the first of these libraries.*?\n((?:\d\. .*\n)+)", (
    PACKAGE / "README.md").read_text("utf-8"), re.S)[1], re.M)


def test_the_order_of_libraries(tmp_path, monkeypatch):
    """From the last to the first, each is found once it is there."""
    package = tmp_path / "bindings" / "python" / "superio"
    name = Path("prebuilt", f"{os.uname().machine}-linux", library.FILE_NAME)
    places = {"The file that the environment": tmp_path / "named",
              "The library in the folder `prebuilt`": tmp_path / name,
              "The library in the package": package / library.FILE_NAME,
              "The library that your system": Path(library.FILE_NAME)}
    monkeypatch.setattr(library, "_PACKAGE", package)
    monkeypatch.setattr(library, "_loaded", Path)
    monkeypatch.delenv(library.VARIABLE, raising=False)
    for said in reversed(at_least(4, FOUND)):
        [place] = [place for words, place in places.items() if said.startswith(words)]
        if place.is_absolute():
            place.parent.mkdir(parents=True, exist_ok=True)
            place.touch()
        if place.name == "named":
            monkeypatch.setenv(library.VARIABLE, str(place))
        assert library.open_library() == place, said


def test_the_library_of_the_system(tmp_path):
    """A library that the system finds serves a package that has none beside it, and without one it says so."""
    shutil.copytree(PACKAGE / "superio", tmp_path / "superio", ignore=shutil.ignore_patterns("*.so.*"))
    command = [sys.executable, "-m", "superio"]
    variables = {**CLEAN, "PYTHONPATH": str(tmp_path), "LD_LIBRARY_PATH": str(tmp_path)}
    status, _, errors = ended(command, b"kr 04\n", cwd="/", env=variables)
    assert status == 2 and errors.endswith("set SUPERIO_LIBRARY to its path\n"), errors
    (tmp_path / library.FILE_NAME).symlink_to(LIBRARY)
    assert ended(command, b"kr 04\n", cwd="/", env=variables) == (0, "00\n", "")


DECLARED = read_header(ctypes.sizeof(ctypes.c_size_t))
TYPES = {"bool": ctypes.c_bool, "void": None, "size_t": ctypes.c_size_t, "const uint8_t *": ctypes.c_char_p,
         **{f"{name}_t": getattr(ctypes, f"c_{name}") for name in ("uint8", "uint16", "uint32", "uint64", "int64")},
         **library.STRUCTS}


def type_of(declared):
    """The type of a field or of a parameter of the header."""
    if declared.kind in TYPES:
        kind = TYPES[declared.kind]
        return kind * DECLARED.constants[declared.length] if declared.length else kind
    return ctypes.POINTER(TYPES[re.fullmatch(r"(?:const )?(\w+) \*", declared.kind)[1]])


def parameter_of(declared):
    """An array parameter is a pointer."""
    return type_of(declared._replace(kind=f"{declared.kind} *", length="") if declared.length else declared)


@pytest.mark.parametrize("name", at_least(13, DECLARED.structs))
def test_struct(name):
    """A struct has the fields and the size of the header."""
    fields = [(field.name, type_of(field)) for field in DECLARED.structs[name]]
    assert library.STRUCTS[name]._fields_ == fields
    assert ctypes.sizeof(library.STRUCTS[name]) == DECLARED.sizes[name]


def test_all_are_there():
    found = library.open_library()
    assert isinstance(found, ctypes.PyDLL), "calls on one device may overlap: they give up Python's lock"
    assert library.PROTOTYPES.keys() == DECLARED.functions.keys()
    assert library.STRUCTS.keys() == DECLARED.structs.keys() == DECLARED.sizes.keys()


@pytest.mark.parametrize("name", at_least(37, DECLARED.functions))
def test_function(name):
    """A function has the prototype of the header. Otherwise ctypes passes and returns an `int`, whose 32 bits many
    numbers fit by chance."""
    declared, function = DECLARED.functions[name], getattr(library.open_library(), name)
    expected = TYPES[declared.returned], [parameter_of(parameter) for parameter in declared.parameters]
    assert library.PROTOTYPES[name] == expected
    assert (function.restype, function.argtypes) == expected


def test_constants_are_those_of_the_header():
    named = {"VERSION": superio.__version__, "ABI": library.ABI, "SERIAL_SAVED_MAX": library.SERIAL_SAVED_MAX,
             "RTC_SAVED_SIZE": library.RTC_SAVED_SIZE, "SERIAL_FIFO_SIZE": registers.FIFO_SIZE,
             "CONSOLE_SAVED_MAX": library.CONSOLE_SAVED_MAX, "CONSOLE_OUTPUT_SIZE": registers.OUTPUT_SIZE,
             "LOAD_OK": 0, **{f"LOAD_{reason.upper().replace(' ', '_')}": number
                              for number, reason in enumerate(SAVED_STATE_ERRORS, 1)}}
    assert {name: DECLARED.constants[f"SUPERIO_{name}"] for name in named} == named
    errors = [name for name in DECLARED.constants if name.startswith("SUPERIO_LOAD_") and name != "SUPERIO_LOAD_OK"]
    assert len(errors) == len(SAVED_STATE_ERRORS)


OWN, HERE = library.ABI, LIBRARY


@pytest.mark.parametrize("said, named, constants", [
    ("/nowhere/lib.so cannot be loaded", "/nowhere/lib.so", {}),
    ("/nowhere/\udcff.so cannot be loaded", "/nowhere/\udcff.so", {}),
    ("none.so cannot be loaded: .* set SUPERIO_LIBRARY", "", {"FILE_NAME": "none.so"}),
    ("libc.so.6 cannot be loaded", "libc.so.6", {}),
    ("has no function superio_later:", HERE, {"PROTOTYPES": {**library.PROTOTYPES, "superio_later": (None, [])}}),
    *((f"interface {OWN}, .* needs {other}:", HERE, {"ABI": other})   # newer than the package, or older
      for other in (OWN - 1, OWN + 1, OWN + 256))])
def test_a_library_is_refused(said, named, constants, monkeypatch):
    monkeypatch.setenv(library.VARIABLE, named)
    for name, value in constants.items():
        monkeypatch.setattr(library, name, value)
    with pytest.raises(LibraryError, match=said):
        library.open_library()


def test_a_library_is_refused_for_a_reason_that_is_not_utf_8(monkeypatch):
    """Some versions of Python then fail to decode it, and others have an empty one."""
    monkeypatch.setattr(ctypes, "PyDLL", lambda path: os.fsencode(f"{path}: no such file").decode("utf-8"))
    monkeypatch.setenv(library.VARIABLE, "/nowhere/\udcff.so")
    with pytest.raises(LibraryError, match=r"cannot be loaded: /nowhere/\\xff.so: no such file"):
        library.open_library()
