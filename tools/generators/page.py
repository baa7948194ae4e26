# SPDX-License-Identifier: Apache-2.0 OR BSD-3-Clause
"""Packs the modules of bindings/js and of web, and the recorded boots, into the page docs/try.html, which then needs no
network, and those of bindings/js into bindings/js/superio.cjs, which `require` takes.

The page itself, with its styles, is written by hand in docs/try.html. What is packed is the same on every machine, but
zlib's versions may pack it differently.
"""
import base64
import lzma
import re
import textwrap
import zlib

from common.commands import ROOT

PACKAGE = ROOT / "bindings" / "js"
RECORDINGS = ROOT / "examples" / "linux-boot"
PAGE = ROOT / "docs" / "try.html"
REQUIRED = PACKAGE / "superio.cjs"
# In the order in which each finds what it takes from those before it.
OF_PACKAGE = [PACKAGE / f"{name}.mjs" for name in ("module", "registers", "superio")]
MODULES = [*OF_PACKAGE, *(ROOT / "web" / f"{name}.mjs" for name in ("lines", "board", "why", "boot", "page"))]
# How superio.mjs makes its instance, and how a module does that may not wait.
WAITING = "const { instance } = await WebAssembly.instantiate(bytesOfModule);"
AT_ONCE = "const instance = new WebAssembly.Instance(new WebAssembly.Module(bytesOfModule));"
# What a browser does without: imports and exports of names, comments that have lines of their own, and empty lines.
LEFT_OUT = re.compile(r"^(?:import [^;]+;|export \{[^}]*\};| *//.*| */\*\*[\s\S]*?\*/)?\n", re.M)
PACKED = re.compile(r'(<script type="text/plain" id="([\w-]+)">)([^<]*)')


def in_one(modules, begin, end):
    """Modules as one script. There each is a block of its own, with what it begins and ends with, so that only what it
    exports is seen; names stay, and an import is of a name before it."""
    script = []
    for module in modules:
        text = module.read_text(encoding="utf-8")
        text = LEFT_OUT.sub("", text).replace("export default ", "export const text = ")
        names = ", ".join(re.findall(r"^export (?:async )?(?:const|class|function) (\w+)", text, flags=re.M))
        body = re.sub(r"^export ", "", text, flags=re.M)
        script.append(f"const {{ {names} }} = {begin}\n{body}return {{ {names} }};\n{end}\n")
    return "\n".join(script)


def sources():
    """What is packed, by the name of its element: the boots, and the modules."""
    boots = {f"{name}-recording": lzma.decompress((RECORDINGS / f"{name}.recording.xz").read_bytes())
             for name in ("boot", "console")}
    return {**boots, "modules": in_one(MODULES, "await (async () => {", "})();").encode()}


def required():
    """The text of superio.cjs, which exports what superio.mjs does."""
    own = OF_PACKAGE[-1].read_text(encoding="utf-8")
    names = sorted(re.findall(r"^export (?:class (?=\w)|\{ (?=\w+ \};))(\w+)", own, flags=re.M))
    script = in_one(OF_PACKAGE, "(() => {", "})();")
    if WAITING not in script:
        raise ValueError(f"{OF_PACKAGE[-1]} has no line {WAITING}")
    return "\n".join(["// SPDX-License-" "Identifier: Apache-2.0 OR BSD-3-Clause",
                      "// Made by tools/generate from module.mjs, registers.mjs and superio.mjs, for `require`.",
                      '"use strict";', "", script.replace(WAITING, AT_ONCE),
                      f"module.exports = {{ {', '.join(names)} }};", ""])


def packed(source):
    """Bytes as browsers unpack them."""
    return "\n".join(textwrap.wrap(base64.b64encode(zlib.compress(source, 9)).decode("ascii"), 120))


def unpacked(page):
    """What a page has packed, by the name of its element."""
    return {name: zlib.decompress(base64.b64decode(text)) for _, name, text in PACKED.findall(page)}


def with_parts(page, parts):
    """A page with these parts. One that it has stays as it is packed, since zlib's versions do not pack alike."""
    kept = unpacked(page)
    return PACKED.sub(lambda found: found[0] if kept[found[2]] == parts[found[2]] else
                      found[1] + packed(parts[found[2]]), page)


if __name__ == "__main__":
    PAGE.write_text(with_parts(PAGE.read_text(encoding="utf-8"), sources()), encoding="utf-8")
    REQUIRED.write_text(required(), encoding="utf-8")
