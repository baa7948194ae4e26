# SPDX-License-Identifier: Apache-2.0 OR BSD-3-Clause
"""`cargo package` packs each crate in a clean clone, and builds what it packed from the packages before it alone. A
package has the licenses, what a registry asks for, and a README.md whose links work without the repository."""
import json
import re
import tarfile
from pathlib import Path

import pytest
from common.cargo import Cargo, add_crate
from documents import CODE, LINK, copy_repository
from harness import ROOT, check

pytestmark = pytest.mark.needs("cargo", "git")

# The folders of the crates that are packed, each after those on which it depends.
PACKAGES = ["rust/superio", "rust/vm-superio", "bindings/c/from-source"]
LICENSES = {"LICENSE-APACHE": "Apache-2.0.txt", "LICENSE-BSD": "BSD-3-Clause.txt"}
# What Cargo writes into a package, or beside it. The manifest of the folder is in the package under another name.
WRITTEN = {".cargo_vcs_info.json", "Cargo.lock", ".cargo-checksum.json", "Cargo.toml"}
MANIFEST = "Cargo.toml.orig"
# What a folder of packages has in each of them, as a registry.
CHECKSUMS, NO_CHECKSUMS = ".cargo-checksum.json", '{"files": {}}'
COMMIT = "git init -q && git add --all && git -c user.name=a -c user.email=a commit -q -m a"


@pytest.fixture(scope="module")
def packed(tmp_path_factory):
    """Beside the folder of each crate in a clone: Cargo there, what it says of the crate, and the unpacked package."""
    folder = tmp_path_factory.mktemp("packages")
    clone, registry, made = folder / "clone", folder / "registry", {}
    copy_repository(clone)
    check(["sh", "-c", COMMIT], cwd=clone)
    add_crate(registry / "serde-1.0.0", None)
    (registry / "serde-1.0.0" / CHECKSUMS).write_text(NO_CHECKSUMS, encoding="ascii")
    for crate in PACKAGES:
        # The settings stand above the clone, which stays clean.
        cargo = Cargo(clone / crate, registry=registry, settings=folder)
        cargo.check("package", "--quiet")
        said = json.loads(cargo.run("metadata", "--no-deps", "--format-version=1", "--quiet").stdout)["packages"][0]
        name = f"{said['name']}-{said['version']}"
        with tarfile.open(Path(cargo.environment["CARGO_TARGET_DIR"]) / "package" / f"{name}.crate") as archive:
            archive.extractall(registry)
        (registry / name / CHECKSUMS).write_text(NO_CHECKSUMS, encoding="ascii")
        made[crate] = cargo, said, registry / name
    return made


def files_of(folder):
    """The files of a crate, by their paths in it, without what Cargo writes itself."""
    paths = (path.relative_to(folder) for path in folder.rglob("*") if path.is_file())
    return {path.as_posix(): (folder / path).read_bytes() for path in paths
            if path.parts[0] != "target" and path.name not in WRITTEN}


@pytest.fixture(scope="module")
def pages(packed):
    """Beside each crate, the pages that rustdoc makes of it, by their paths. It has nothing else to say."""
    made = {}
    for crate in PACKAGES:
        cargo = packed[crate][0]
        cargo.check("doc", "--no-deps", "--quiet", RUSTDOCFLAGS="-D warnings")
        [top] = [path.parent for path in (Path(cargo.environment["CARGO_TARGET_DIR"]) / "doc").glob("*/all.html")
                 if path.parent.name == packed[crate][1]["targets"][0]["name"]]
        made[crate] = {path.relative_to(top).as_posix(): path.read_text(encoding="utf-8")
                       for path in top.rglob("*.html")}
    return made


@pytest.mark.parametrize("crate", PACKAGES)
def test_documented(pages, crate):
    """On the page of each type the call that makes one comes first."""
    calls = {path: re.findall(r'id="method\.(\w+)"', page) for path, page in pages[crate].items() if "struct." in path}
    assert crate == PACKAGES[-1] or {"new"} < {name for names in calls.values() for name in names}
    assert not [(path, names) for path, names in calls.items() if "new" in names[1:]]


@pytest.mark.parametrize("crate", PACKAGES[:2])
def test_calls_are_linked(packed, pages, crate):
    """A call that a page names, other than a field or an argument of that name, is a link there."""
    sources = [path.read_text("utf-8") for name in PACKAGES[:2]
               for path in (packed[name][0].folder / "src").rglob("*.rs")]
    calls = {name for page in pages[crate].values() for name in re.findall(r'id="(?:ty)?method\.(\w+)"', page)}
    calls &= {name for source in sources for name in re.findall(r"\bfn (\w+)", source)}
    calls -= {name for source in sources for name in re.findall(r"^ *pub (\w+):", source, re.M)}
    tried = {path: re.sub(r"(?s)<pre.*?</pre>", "", page) for path, page in pages[crate].items()
             if not re.match(r"(struct|fn|all)\b", path)}
    named = {path: {name.split("::")[-1] for name in re.findall(r"<code>([\w:]+)(?:\(\))?</code>", page)} & calls
             for path, page in tried.items()}
    linked = {path: {*re.findall(r"<a [^>]*><code>(?:\w+::)*(\w+)", page)} for path, page in tried.items()}
    assert linked["index.html"] >= {"interrupt_line", "alarm_due", "character_timeout"}
    assert not {(path, name) for path, names in named.items() for name in names - linked[path]
                if not re.search(rf"\b{name}: ", pages[crate][path])}


@pytest.mark.parametrize("crate", PACKAGES)
def test_what_a_registry_asks_for(packed, crate):
    said = packed[crate][1]
    for key in ("description", "keywords", "license", "readme", "rust_version"):
        assert said[key], key
    assert "emulators" in said["categories"]


@pytest.mark.parametrize("crate", PACKAGES)
def test_files(packed, crate):
    """All of the folder, sources and header among them, and no other. The licenses are those of the repository."""
    cargo, _, package = packed[crate]
    found, wanted = files_of(package), files_of(cargo.folder)
    assert found.pop(MANIFEST) == (cargo.folder / "Cargo.toml").read_bytes()
    assert found.keys() == wanted.keys() and not [name for name in wanted if found[name] != wanted[name]]
    assert "README.md" in found and any(name.startswith("src/") for name in found)
    for place, text in LICENSES.items():
        assert (package / place).read_bytes() == (ROOT / "LICENSES" / text).read_bytes()


@pytest.mark.parametrize("crate", PACKAGES)
def test_links(packed, crate):
    package = packed[crate][2]
    links = map("".join, LINK.findall(CODE.sub("", (package / "README.md").read_text(encoding="utf-8"))))
    assert not [link for link in links if not re.match(r"#|\w+:", link) and not (package / link).exists()]


@pytest.fixture(scope="module")
def build_script(tmp_path_factory):
    """The program by which Cargo learns the name of the shared library, for a binary interface of two digits."""
    folder = tmp_path_factory.mktemp("build-script")
    code = (ROOT / "bindings/c/from-source/src/lib.rs").read_text(encoding="utf-8")
    changed, count = re.subn(r"(?<=const ABI: u32 = )\d+", "12", code)
    assert count == 1
    (folder / "src").mkdir()
    (folder / "src/lib.rs").write_text(changed, encoding="utf-8")
    (folder / "build.rs").write_bytes((ROOT / "bindings/c/from-source/build.rs").read_bytes())
    check(["rustc", "--edition", "2021", "build.rs"], "", cwd=folder)
    return folder / "build"


@pytest.mark.parametrize("system", ["linux", "android", "macos", "windows", "none", "unknown", None])
def test_name_of_the_shared_library(build_script, system):
    """Only a library for Linux is given one, on whatever system Cargo runs: other linkers have not the option."""
    environment = {"CARGO_CFG_TARGET_OS": system} if system else {}
    said = check([build_script], env=environment).splitlines()
    options = [line for line in said if not line.startswith("cargo:rerun-if-changed=")]
    assert options == ["cargo:rustc-cdylib-link-arg=-Wl,-soname,libsuperio.so.12"] * (system == "linux")
