# SPDX-License-Identifier: Apache-2.0 OR BSD-3-Clause
"""Releases by `make dist`, and the packages that Debian's tools build of one: what is in them, the same in any folder,
and the goals of `make` that Debian's tests are."""
import gzip
import json
import os
import re
import shutil
import tarfile
import zipfile
from pathlib import Path

import pytest
from documents import Document, copy_repository
from generators.interface import ABI, VERSION
from generators.libraries import PREBUILT, SHARED, TARGETS
from harness import ROOT, at_least, check, run
from shared import HAS_FROM_SOURCE, assert_properties, assert_same, crate_files, finding, found_in, installation

pytestmark = pytest.mark.needs("git", "make", "npm", "pip")

DATED = f"sed -i 's/^## {VERSION} - .*/## {VERSION} - 2026-01-01/' CHANGELOG.md"
COMMIT = "git init -q && git add --all && git -c user.name=a -c user.email=a commit -q -m a && git tag v$(cat VERSION)"
# Debian's Python, which its setuptools is for.
PYTHON = "/usr/bin/python3"
RELEASE = f"make -s dist PYTHON={PYTHON} DIST"
MOMENT = 1700000000
# The files of a release: archives in our own form, and what the tools of Python and npm make.
ARCHIVES = [f"fimolavand-{VERSION}", f"superio-{VERSION}-rust", *(f"superio-{VERSION}-{target}" for target in TARGETS)]
WHEEL = "superio-{0}-py3-none-manylinux_2_17_{1}.manylinux2014_{1}.musllinux_1_1_{1}.whl"
FILES = [*(f"{name}.tar.gz" for name in ARCHIVES), f"superio-{VERSION}.tar.gz", f"superio-{VERSION}.tgz",
         f"superio-{VERSION}.html", *(WHEEL.format(VERSION, target.partition("-")[0]) for target in TARGETS)]
# What every program of a build of Debian's finds first, whatever else is installed. Packages are compressed less, in a
# quarter of the time.
OF_DEBIAN = {**os.environ, "PATH": "/usr/sbin:/usr/bin:/sbin:/bin", "DPKG_DEB_COMPRESSOR_LEVEL": "0"}


def another_user():
    """The words before a command that runs it as a user with another number, if this one is root and may do so."""
    words = ["unshare", "--user", "--map-user=1000", "--map-group=1000"]
    return words if os.geteuid() == 0 and run([*words, "true"]).returncode == 0 else []


@pytest.fixture(scope="module")
def quick(tmp_path_factory):
    """A folder with an xz and a gzip that compress less, in half of the time."""
    folder = tmp_path_factory.mktemp("quick")
    for name, level in ("xz", 0), ("gzip", 1):
        program = folder / name
        program.write_text(f'#!/bin/sh\nexec {shutil.which(name)} "$@" -{level}\n', encoding="utf-8")
        program.chmod(0o755)
    return folder


@pytest.fixture(scope="module")
def releases(tmp_path_factory, quick):
    """Two releases, in other folders, at other times, for other users. Gives the folder with the trees and the
    releases."""
    folder = tmp_path_factory.mktemp("releases")
    own = {**os.environ, "GIT_COMMITTER_DATE": f"{MOMENT} +0000", "PATH": f"{quick}:{os.environ['PATH']}"}
    other = {**own, "TZ": "Asia/Tokyo", "LC_ALL": "C", "USER": "other"}
    for variable, name in ("HOME", "home"), ("TMPDIR", "temporary"):
        (folder / name).mkdir()
        other[variable] = str(folder / name)
    for made, user, mask, environment in ("one", [], "022", own), ("two", another_user(), "077", other):
        tree = folder / f"the tree of {made}"
        copy_repository(tree)
        check([*user, "sh", "-c", f"umask {mask} && {DATED} && {COMMIT} && {RELEASE}={folder / made}"], "", cwd=tree,
              env=environment)
    return folder


def test_the_same_bytes(releases):
    check(["diff", "-r", releases / "one", releases / "two"], "")


def test_nothing_is_left(releases):
    """Neither where temporary files go, nor in the home of the user, where npm and others keep things."""
    assert not [*releases.glob("home/*"), *releases.glob("temporary/*")]


def test_sums(releases):
    """Of every file."""
    check(["sha256sum", "--check", "--strict", "--quiet", "SHA256SUMS"], "", cwd=releases / "one")
    named = [line.partition("  ")[2] for line in (releases / "one" / "SHA256SUMS").read_text("ascii").splitlines()]
    assert sorted(named) == sorted(FILES) == sorted({*os.listdir(releases / "one")} - {"SHA256SUMS"})


@pytest.mark.parametrize("name", at_least(4, ARCHIVES))
def test_archive(releases, name):
    """It has one folder, of its own name, in the order of names and not of a disk. All in it is of root and of one moment,
    and may be read by everybody."""
    with tarfile.open(releases / "two" / f"{name}.tar.gz") as archive:
        members = archive.getmembers()
    assert {(member.uid, member.gid, member.uname, member.gname, member.mtime) for member in members} == {
        (0, 0, "root", "root", MOMENT)}
    assert {member.name.partition("/")[0] for member in members} == {name}
    assert members == sorted(members, key=lambda member: member.name.split("/"))
    modes = {0o755: {"d", "x"}, 0o644: {"f"}, 0o777: {"l"}}
    kinds = {(member.mode, "d" if member.isdir() else "l" if member.issym() else "x" if member.mode & 0o100 else "f")
             for member in members}
    assert all(kind in modes.get(mode, ()) for mode, kind in kinds), kinds


def unpacked(releases, name, folder):
    check(["tar", "-xpf", releases / "one" / f"{name}.tar.gz", "-C", folder])
    return found_in(folder / name)


def test_archive_of_the_sources(releases, tmp_path):
    """It has what the commit has."""
    names = check(["git", "ls-files"], cwd=releases / "the tree of one").splitlines()
    found = unpacked(releases, ARCHIVES[0], tmp_path)
    assert sorted(found) == sorted(names)
    for name in names:
        path = releases / "the tree of one" / name
        assert found[name] == os.readlink(path) if path.is_symlink() else found[name][1] == path.read_bytes(), name


@pytest.mark.parametrize("target", TARGETS)
def test_archive_of_the_library(releases, target, tmp_path):
    """As `make install` installs it."""
    assert_same(unpacked(releases, f"superio-{VERSION}-{target}", tmp_path), installation(PREBUILT / target))


def test_archive_of_the_crates(releases, tmp_path):
    assert_same(unpacked(releases, f"superio-{VERSION}-rust", tmp_path), crate_files())


def test_page(releases):
    page = releases / "one" / f"superio-{VERSION}.html"
    assert page.read_bytes() == (ROOT / "docs/try.html").read_bytes()


def test_packages_for_registries(releases):
    """That of npm has all that its manifest lists and the licenses, and a wheel the library of its processor."""
    sources = [*(ROOT / "bindings/js").iterdir(), *ROOT.glob("LICENSE"), *ROOT.glob("LICENSES/*")]
    files = {path.name: path for path in sources}
    with tarfile.open(releases / "one" / f"superio-{VERSION}.tgz") as archive:
        found = {member.name.partition("/")[2]: archive.extractfile(member).read()
                 for member in archive if member.isfile()}
    listed = json.loads(files["package.json"].read_text("utf-8"))["files"]
    assert {name.partition("/")[0] for name in found} == {*listed, "package.json"}
    assert not [name for name in found if found[name] != files[name.rpartition("/")[2]].read_bytes()]
    for target in TARGETS:
        with zipfile.ZipFile(releases / "one" / WHEEL.format(VERSION, target.partition("-")[0])) as wheel:
            assert wheel.read(f"superio/{SHARED}") == (PREBUILT / target / SHARED).read_bytes()


def headed(heading):
    """What commits and tags the tree with another heading of the version."""
    return (f"sed -i 's/^## {VERSION} - .*/## {heading}/' CHANGELOG.md && "
            f"git -c user.name=a -c user.email=a commit -q -a -m b && git tag -f v{VERSION}")


# What is done to a tree of which a release could be made, and what refuses the release then: each condition is missing,
# or is there for something else.
ANOTHER_COMMIT = "git -c user.name=a -c user.email=a commit -q --allow-empty -m b"
SPOILED = {
    "a new file": ("touch new", "not clean"),
    "a changed file": ("echo >> README.md", "not clean"),
    "a change to commit": ("echo >> README.md && git add README.md", "not clean"),
    "a file that is gone": ("rm README.md", "not clean"),
    "no tag": (f"git tag -d v{VERSION}", "HEAD has no tag"),
    "the tag of the commit before": (ANOTHER_COMMIT, "HEAD has no tag"),
    "the tag of the commit after": (f"{ANOTHER_COMMIT} && git tag -f v{VERSION} && git checkout -q HEAD^",
                                    "HEAD has no tag"),
    "tags of other versions": (f"git tag -d v{VERSION} && git tag v{VERSION}1 && git tag v1{VERSION} && "
                               f"git tag {VERSION}", "HEAD has no tag"),
    "no date": (headed(f"{VERSION} - unreleased"), "has no date"),
    "half a date": (headed(f"{VERSION} - 2026-01"), "has no date"),
    "more than a date": (headed(f"{VERSION} - 2026-01-01, not yet"), "has no date"),
    "dates of other versions": (headed(f"1{VERSION} - 2026-01-01\\n## {VERSION}1 - 2026-01-01"), "has no date"),
    "an earlier release": ("mkdir ../no", "no is there already"),
}


@pytest.mark.parametrize("name", SPOILED)
def test_refused(releases, name, tmp_path):
    """A release of files that no commit has, of a commit or version without tag or date, or over another release."""
    tree, (spoil, said) = tmp_path / "tree", SPOILED[name]
    check(["cp", "-a", releases / "the tree of two", tree])
    check(["sh", "-ec", spoil], cwd=tree)
    ran = run(["sh", "-c", f"{RELEASE}=../no"], cwd=tree)
    assert ran.returncode and said in ran.stdout
    assert not [*tmp_path.glob("no/*")]


@pytest.mark.needs("cc")
def test_clean(releases):
    """`make -C tests/c` passes, and `make clean` then leaves what git has."""
    tree = releases / "the tree of one"
    check(["make", "-s", "check-library"], cwd=tree)
    check(["make", "-s", "clean"], "", cwd=tree)
    check(["git", "status", "--porcelain", "--ignored"], "", cwd=tree)


def commands_for_debian():
    """The commands of docs/RELEASE.md that unpack the sources for Debian, and the one that builds the packages."""
    [block] = [block for block in Document("docs/RELEASE.md").blocks
               if any("debian/rules" in line for line in block.lines)]
    *unpacking, building = [line.replace("VERSION", VERSION) for line in block.lines]
    return "\n".join(unpacking), building


@pytest.fixture(scope="module")
def debian(releases, quick):
    """The folder of a source package without the libraries, unpacked."""
    tree = releases / "debian" / f"fimolavand-{VERSION}"
    tree.parent.mkdir()
    shutil.copy(releases / "one" / f"{tree.name}.tar.gz", tree.parent)
    check(["sh", "-ec", commands_for_debian()[0]], cwd=tree.parent,
          env={**OF_DEBIAN, "PATH": f"{quick}:{OF_DEBIAN['PATH']}"})
    return tree


@pytest.fixture(scope="module")
def before(debian):
    """What the source package has, before anything is built of it."""
    return found_in(debian)


@pytest.fixture(scope="module")
def builds(debian, before):
    """Two builds of the packages, the second in another folder, for another user with settings of Cargo, without tests.
    Gives what each said, by its folder."""
    other, folder = debian.parent / "a" / "longer" / "path", debian.parent
    other.parent.mkdir(parents=True)
    check(["cp", "-a", debian, other])
    (folder / "cargo").mkdir()
    (folder / "cargo/config.toml").write_text("[profile.release]\nopt-level = 0\n", encoding="ascii")
    strange = {**OF_DEBIAN, "TZ": "Asia/Tokyo", "LC_ALL": "C", "USER": "other", "DEB_BUILD_OPTIONS": "nocheck",
               "CARGO_HOME": f"{folder / 'cargo'}"}
    return {folder: check(["sh", "-ec", commands_for_debian()[1]], cwd=folder, env=OF_DEBIAN),
            other.parent: check(["sh", "-c", "umask 077 && dpkg-buildpackage -us -uc -b -nc"], cwd=other, env=strange)}


@pytest.fixture(scope="module")
def packages(builds, debian):
    """The packages that Debian's tools build. Gives their folder, and the one into which they are unpacked."""
    folder, root = debian.parent, debian.parent / "root"
    for package in folder.glob("*.deb"):
        check(["dpkg", "-x", package, root], env=OF_DEBIAN)
    return folder, root


needs_debian = pytest.mark.needs("debian", "debian-rust")


@needs_debian
def test_no_libraries_in_the_sources(debian):
    assert not (debian / "prebuilt").exists()
    check(["dpkg-checkbuilddeps"], cwd=debian, env=OF_DEBIAN)


@needs_debian
def test_the_same_packages(builds):
    """The same bytes in any folder, for any user."""
    one, other = ({path.name: path.read_bytes() for path in folder.glob("*.deb")} for folder in builds)
    assert len(one) == 4
    assert_same(other, one)


@needs_debian
def test_a_build_tests_the_library(builds):
    """Unless it is told not to."""
    said = [re.findall(r"^\d+ calls did the same, 0 did not$", text, re.M) for text in builds.values()]
    assert [*map(len, said)] == [1, 0]


@needs_debian
def test_clean_sources(builds, before):
    """What a build made goes, and nothing else: Debian builds again in the same folder."""
    tree = [*builds][1] / "path"
    assert found_in(tree) != before
    check(["debian/rules", "clean"], cwd=tree, env=OF_DEBIAN)
    assert_same(found_in(tree), before)


def of_debian():
    """What each package has below /usr, in the form of an installation. Debian's rules compress long texts, take the
    right to run a library, and have licenses elsewhere. The libraries are from source, so their bytes are others."""
    machine = check(["dpkg-architecture", "-qDEB_HOST_MULTIARCH"]).strip()
    libdir, docdir = f"lib/{machine}", "share/doc/libsuperio-dev"
    files = installation(PREBUILT / "x86_64-linux", libdir, docdir)
    files = {name: file for name, file in files.items() if not name.startswith("share/licenses/")}
    files[f"{libdir}/libsuperio.a"] = files[f"{libdir}/{SHARED}"] = 0o644, None
    made = {f"libsuperio{ABI}": {f"{libdir}/{SHARED}": files.pop(f"{libdir}/{SHARED}")}, "libsuperio-dev": files,
            "libsuperio-rust-dev": {f"share/superio/{name}": file for name, file in crate_files().items()
                                    if "/LICENSE-" not in name}}
    for package, has in made.items():
        has.update({f"share/doc/{package}/{name}": (0o644, None)
                    for name in ("changelog", "changelog.Debian", "copyright")})
    return made


def content_of(path):
    """The bytes of a file, which may be compressed."""
    if path.is_symlink():
        return None
    return gzip.decompress(path.read_bytes()) if path.suffix == ".gz" else path.read_bytes()


@needs_debian
@pytest.mark.parametrize("package", [f"libsuperio{ABI}", "libsuperio-dev", "libsuperio-rust-dev"])
def test_files_of_the_packages(packages, package):
    """Each is of root."""
    [path] = packages[0].glob(f"{package}_*.deb")
    rows = re.findall(r"^(\S+) (\S+) .*? (\./.*?)(?: -> (.*))?$", check(["dpkg-deb", "--contents", path]), re.M)
    assert {owner for _, owner, *_ in rows} == {"root/root"}
    assert {mode for mode, _, name, _ in rows if name.endswith("/")} == {"drwxr-xr-x"}
    found, wanted = {}, of_debian()[package]
    for mode, _, name, link in rows:
        place = name[len("./usr/"):].removesuffix(".gz")
        if not name.endswith("/"):
            found[place] = link or ({"-rw-r--r--": 0o644}.get(mode, mode), content_of(packages[1] / name))
        if wanted.get(place, ())[1:] == (None,):
            found[place] = found[place][0], None
    assert_same(found, wanted)


@needs_debian
def test_what_the_packages_need(packages):
    """Where a link leads, and each library that one of ours takes, comes from the package itself or from one on which it
    depends: on one of ours, of the same version."""
    owners, links, needed = {}, [], []
    for path in packages[0].glob("*.deb"):
        said = check(["dpkg-deb", "--field", path, "Package", "Version", "Depends"])
        fields = dict(re.findall(r"^(\w+): (.*)$", said, re.M))
        own = f"{fields['Package']} (= {fields['Version']})"
        depends = {own, *fields.get("Depends", "").split(", ")}
        for name, link in re.findall(r" \./(\S+?)/?(?: -> (.*))?$", check(["dpkg-deb", "--contents", path]), re.M):
            owners.setdefault(name, set()).add(own)
            if link:
                links.append((name, os.path.normpath(f"{os.path.dirname(name)}/{link}"), depends))
            elif re.search(r"\.so\.\d+$", name):
                said = check(["readelf", "--dynamic", packages[1] / name])
                needed += [(library, depends) for library in re.findall(r"\(NEEDED\).*\[(.*)\]", said)]
    for name, place, depends in at_least(1, links):
        assert depends & owners.get(place, set()), f"{name} leads to {place}"
    for library, depends in at_least(1, needed):
        of = re.findall(r"^([\w.+-]+)(?::\w+)?: ", check(["dpkg", "-S", f"*/{library}"]), re.M)
        assert {word.partition(" ")[0] for word in depends} & {*of}, library


def errors_of_lintian():
    """The names of all that lintian calls an error. One with a name space has the name of its check before it."""
    for path in Path("/usr/share/lintian/tags").rglob("*.tag"):
        fields = dict(re.findall(r"^([\w-]+): *(.*)$", path.read_text("utf-8"), re.M))
        if fields["Severity"] == "error":
            yield f"{fields['Check']}/{fields['Tag']}" if fields.get("Name-Spaced") == "yes" else fields["Tag"]


@needs_debian
def test_lintian(packages, tmp_path):
    """It finds no error in the sources and in the packages: an upload has both. Checks that can find none are left out."""
    (tmp_path / "errors").write_text("\n".join(at_least(500, errors_of_lintian())), encoding="ascii")
    check(["lintian", "--fail-on", "error", "--tags-from-file", tmp_path / "errors", *packages[0].glob("*.changes")],
          env=OF_DEBIAN)


@needs_debian
def test_properties_of_the_packaged_library(packages):
    [shared] = packages[1].rglob(SHARED)
    assert_properties(shared, ["memcpy", "memset"], more=HAS_FROM_SOURCE)


@needs_debian
def test_lines_for_a_debugger(packages):
    """The package of debugging symbols has them, for the functions of C and for each device."""
    [symbols] = (packages[1] / "usr/lib/debug").rglob("*.debug")
    found = {*re.findall(r"\s(?:\S*/)?(\w+\.rs)$", check(["readelf", "--debug-dump=line", symbols]), re.M)}
    assert found >= {"lib.rs", "serial.rs", "rtc_pl031.rs", "i8042.rs", "fifo.rs", "output_ring.rs"}


@needs_debian
def test_tests_of_the_packages(packages, debian):
    [shared] = packages[1].rglob(SHARED)
    goals = ["installcheck", "installcheck-rust", f"CRATE={packages[1]}/usr/share/superio/vm-superio"]
    check(["make", "-s", *goals], cwd=debian, env=finding(shared.parent, OF_DEBIAN))


@needs_debian
@pytest.mark.parametrize("goal", ["all", "check-library", "install"])
def test_without_prebuilt(debian, goal):
    """`make` builds the libraries too."""
    check(["make", "-s", goal, f"DESTDIR={debian.parent / 'from source'}"], cwd=debian, env=OF_DEBIAN)


# What a program over the crate prints, and what it may print in place of that, each with its status.
STATE = "RtcState { lr: 0, offset: 0, mr: 0, imsc: 0, ris: 0 }\n"


@pytest.mark.parametrize("printed, status", at_least(5, [
    (STATE, 0), (STATE, 1), ("", 0), (STATE.replace(" }", "1 }"), 0), (STATE.replace("lr: 0", "lr: 01"), 0),
    (STATE + STATE, 0)]), ids=lambda value: str(value)[-12:])
def test_installcheck_of_the_crate_fails(printed, status, tmp_path):
    """If the crate does something else. This cargo runs such a program."""
    (tmp_path / "printed").write_text(printed, encoding="ascii")
    (tmp_path / "cargo").write_text(f"#!/bin/sh\ncat {tmp_path}/printed\nexit {status}\n", encoding="ascii")
    (tmp_path / "cargo").chmod(0o755)
    ran = run(["make", "-s", "installcheck-rust"], cwd=ROOT,
              env={**os.environ, "PATH": f"{tmp_path}:{os.environ['PATH']}"})
    assert (ran.returncode == 0) == ((printed, status) == (STATE, 0)), ran.stdout
