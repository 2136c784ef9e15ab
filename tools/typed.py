#!/usr/bin/env python3
"""Finds functions of Python without types.

usage: python3 tools/typed.py

Looks at each .py file that git knows, and at each file without a suffix that Python runs. Prints a line for each function
that does not say the type of each argument, but for `self` and `cls`, and of its result, but for `__init__`. Ends with
status 1 if there is one, else with 0.
"""

import ast
import re
import subprocess
import sys
from pathlib import Path
from typing import Iterator, Union

HOUSE = Path(__file__).resolve().parent.parent
Function = Union[ast.FunctionDef, ast.AsyncFunctionDef]


def is_python(path: Path) -> bool:
    if path.suffix or not path.is_file():
        return path.suffix == ".py"
    with open(path, "rb") as file:
        return bool(re.match(rb"#!.*\bpython", file.readline()))


def scripts() -> Iterator[Path]:
    listed = subprocess.run(["git", "ls-files", "-z"], cwd=HOUSE, capture_output=True, text=True, check=True)
    return filter(is_python, (HOUSE / name for name in listed.stdout.split("\0") if name))


def untyped(function: Function) -> list[str]:
    """The arguments without a type, and `result`."""
    given = function.args
    every = [*given.posonlyargs, *given.args, *given.kwonlyargs, *filter(None, (given.vararg, given.kwarg))]
    missing = [each.arg for each in every if each.annotation is None and each.arg not in ("self", "cls")]
    return missing + ["result"] * (function.returns is None and function.name != "__init__")


def main() -> int:
    found = 0
    for path in scripts():
        tree = ast.parse(path.read_text(encoding="utf-8"))
        for function in (each for each in ast.walk(tree) if isinstance(each, (ast.FunctionDef, ast.AsyncFunctionDef))):
            missing = untyped(function)
            found += bool(missing)
            if missing:
                place = f"{path.relative_to(HOUSE)}:{function.lineno}"
                print(f"{place}: {function.name}: write the type of {', '.join(missing)}")
    return 1 if found else 0


if __name__ == "__main__":
    sys.exit(main())
