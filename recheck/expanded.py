# SPDX-License-Identifier: Apache-2.0 OR BSD-3-Clause
"""Compares what is read of each crate with what rustc reads: the whole crate, after it has found the files of modules,
expanded macros and settled each `cfg`. So nothing rests on how the parser finds its text."""
import os
import re
import subprocess
from pathlib import Path
from typing import Callable, Iterable, Iterator, Mapping, Sequence

from rust_paths import module_of
from rust_tokens import Refused, source, tokens

# What rustc adds, or writes in the place of a `derive`.
ADDED = re.compile(r"""(\#\ \[\ macro_use\ \]\ )?extern\ crate\ (core|std|compiler_builtins)\ ;
    | \#\ \[\ prelude_import\ \]\ use\ (::\ )?(core|std)\ ::\ prelude\ ::\ rust_2021\ ::\ \*\ ;
    | impl\ ::\ core\ ::\ marker\ ::\ Structural(Partial)?Eq\ for\ \w+\ \{\ \}
    | (\#\ \[\ [^]]*\ \]\ )*\#\ \[\ automatically_derived\ \]\ .*""", re.X)


Words = list[str]


def words_of(text: str, file: Path | str) -> Words:
    return [token.word for token in tokens(text, file) if token.kind not in ("doc", "end")]


def closing(words: Words, at: int) -> int:
    """Where the bracket at this place is closed."""
    depth = 0
    for place in range(at, len(words)):
        depth += {"{": 1, "(": 1, "[": 1, "}": -1, ")": -1, "]": -1}.get(words[place], 0)
        if depth == 0:
            return place
    raise Refused("a bracket that is not closed")


def items_of(words: Words) -> Iterator[Words]:
    """Each item, without attributes of the file."""
    at = 0
    while at < len(words):
        if words[at:at + 2] == ["#", "!"]:
            at = closing(words, at + 2) + 1
            continue
        start, keyword = at, None
        while True:
            if words[at] in ("{", "(", "["):
                block = words[at] == "{"
                at = closing(words, at) + 1
                if block and keyword != "use":
                    break
                continue
            keyword = keyword or (words[at] if re.match(r"[a-z]", words[at]) and words[at] != "pub" else None)
            at += 1
            if words[at - 1] == ";":
                break
        yield words[start:at]


def bare(words: Words) -> Words:
    """The item without its attributes."""
    while words[:1] == ["#"]:
        words = words[closing(words, 1) + 1:]
    return words


def head(words: Words) -> Words:
    """What tells an item from the others: of an implementation, all before its methods."""
    return bare(words)[:bare(words).index("{")] if "impl" in bare(words)[:1] else bare(words)


def flat(words: Words, left_out: Iterable[Words], submodule: Callable[[str, Words], Words]) -> Words:
    """All items in one list, the items of a module in its place, without what is left out."""
    found: Words = []
    heads = [head(item) for item in left_out]
    for item in items_of(words):
        if ADDED.fullmatch(" ".join(item)) or head(item) in heads:
            continue
        inside = bare(item)
        at = inside.index("mod") if "mod" in inside[:5] and "fn" not in inside[:5] else None
        if at is None:
            found += item
        else:
            body = submodule(inside[at + 1], inside[at + 3:-1])
            found += [*item[:len(item) - len(inside)], *inside[:at + 2], "{", *body, "}"]
    return found


def read(folder: Path, left_out: Mapping[Path, Sequence[Words]], file: Path = Path("lib.rs")) -> Words:
    """What is read of a crate."""
    below = Path(*module_of(file))

    def submodule(name: str, _: Words) -> Words:
        of_file = below / f"{name}.rs"
        return read(folder, left_out, of_file if (folder / of_file).exists() else below / name / "mod.rs")
    return flat(words_of(source(folder / file), file), left_out.get(file, ()), submodule)


def plain(words: Words) -> Words:
    """The same without `derive`, lints of rustc's own and commas that mean nothing, and with `matches!` as a match."""
    found: Words = []
    at = 0
    while at < len(words):
        text = " ".join(words[at:at + 5])
        if re.match(r"# \[ (derive|cfg_attr) |# \[ allow \( non_exhaustive_omitted_patterns", text):
            at = closing(words, at + 1) + 1
        elif words[at:at + 2] == ["matches", "!"]:
            end = closing(words, at + 2)
            comma = at + 3
            while words[comma] != ",":
                comma = closing(words, comma) + 1 if words[comma] in ("(", "[", "{") else comma + 1
            arms = [*words[comma + 1:end], *"=> true , _ => false".split()]
            words = [*words[:at], "match", *words[at + 3:comma], "{", *arms, "}", *words[end + 1:]]
        else:
            found.append(words[at])
            at += 1
    return [word for at, word in enumerate(found)
            if word != "," or found[at + 1] not in (")", "]", "}") and found[at - 1] != "}"]


def compare(root: Path, rustc: str, folders: Mapping[str, str], left_out: Mapping[str, Mapping[Path, Sequence[Words]]],
            temporary: Path | str) -> Iterator[tuple[Path, int]]:
    """Whether rustc reads what is read here, of each crate."""
    def run(*options: str) -> str:
        made = [f"--extern=superio={temporary}/libsuperio.rmeta"] if name != "core" else []
        command = [rustc, "--edition=2021", "--crate-type=lib", *made, *options, "src/lib.rs"]
        environment = os.environ | {"RUSTC_BOOTSTRAP": "1"}
        done = subprocess.run(command, cwd=root / folder, env=environment, capture_output=True, encoding="utf-8")
        if done.returncode:
            raise Refused(f"{' '.join(map(str, command))}\n{done.stderr}")
        return done.stdout
    for name, sources in folders.items():
        folder = Path(sources).parent
        named = ["--crate-name", {"core": "superio", "c": "superio_c", "shell": "vm_superio"}[name]]
        features = ["--cfg", 'feature="std"'] if name == "core" else []
        listed = [item for items in left_out[name].values() for item in items]
        ours = plain(read(root / folder / "src", left_out[name]))
        text = run(*named, *features, "-Zunpretty=expanded")

        def inner(_: str, words: Words) -> Words:
            return flat(words, listed, inner)
        theirs = plain(inner("", words_of(text, f"{folder}, expanded")))
        if ours != theirs:
            at = next((at for at, (a, b) in enumerate(zip(ours, theirs)) if a != b), min(len(ours), len(theirs)))
            read_there, read_here = (" ".join(words[at - 5:at + 15]) for words in (theirs, ours))
            raise Refused(f"{folder}: rustc reads {read_there}, and here stands {read_here}")
        if name == "core":
            run(*named, *features, "--emit=metadata", f"--out-dir={temporary}")
        yield folder, len(ours)
