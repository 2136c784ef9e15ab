"""Joins a module and what it imports into one file without imports, which a page can pin and start.

No two of them may have a name in common outside of functions and classes: such a file is no module. Comments and the
spaces before lines are left out. """

import re
from pathlib import Path

HERE = Path(__file__).resolve().parent
IMPORT = re.compile(r"^import \{[^}]*\} from '\./(\w+)\.mjs';\n", re.M)
EXPORT = re.compile(r"^export ", re.M)
LEFT_OUT = re.compile(r"^ *(?://.*|/\*\*(?s:.*?)\*/)\n|/\*\*(?s:.*?)\*/ ?|(?<=[;,{]) // .*$|^\n|^ +", re.M)


def in_order(name: str, found: "dict[str, str]") -> "dict[str, str]":
    """The modules in an order in which each comes after those that it imports."""
    if name not in found:
        text = LEFT_OUT.sub("", (HERE / f"{name}.mjs").read_text(encoding="utf-8"))
        for match in IMPORT.finditer(text):
            in_order(match.group(1), found)
        found[name] = EXPORT.sub("", IMPORT.sub("", text))
    return found


def bundle(name: str) -> bytes:
    return "".join(in_order(name, {}).values()).encode()
