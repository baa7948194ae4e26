# SPDX-License-Identifier: Apache-2.0 OR BSD-3-Clause
"""The items that are not translated, as left-out.rs lists them."""
import re

from parse_items import Parser


def left_out_items(text: str) -> dict[str, list[list[str]]]:
    """What is left out of each file, by its path: sections of items, each after `//: PATH`."""
    found: dict[str, list[list[str]]] = {}
    for section in re.split(r"^//: ", text, flags=re.M)[1:]:
        path, _, items = section.partition("\n")
        parser = Parser(items, path)
        found[path] = []
        while parser.next:
            words, parser.at = parser.item_ahead()
            found[path].append(words)
    return found
