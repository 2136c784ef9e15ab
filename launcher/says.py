"""Says for ./ats what the program does not: help, what is wrong with words, and what a fault is.

usage: python3 launcher/says.py help [COMMAND] | version STATE | unknown WORDS | slow WORDS | fault STATUS PROGRAM LINE WORDS

Asked help goes to standard output, all else to standard error.
"""

import difflib
import re
import shlex
import shutil
import subprocess
import sys
import textwrap
from pathlib import Path
from typing import Optional

import commands
import explain
from commands import ENTRIES, HOME, Command

WIDTH = 96
ROLES = {"owner": "who has the texts", "server": "who answers, and need not be trusted", "reader": "who holds only a root",
         "auditor": "who compares answers with the archive"}
HELP = ("help", "--help", "-h")
SAMPLES = (HOME / "examples" / "archive.json", Path("/usr/share/doc/ats/examples/archive.json"))


def say(line: str) -> None:
    print(f"ats: {line}", file=sys.stderr)


def filled(text: str, indent: str = "", first: Optional[str] = None) -> str:
    """The lines of a text, each filled."""
    return "\n".join(textwrap.fill(line, WIDTH, initial_indent=indent if first is None else first, subsequent_indent=indent,
                                   break_on_hyphens=False, break_long_words=False) for line in text.splitlines())


def as_typed(line: str) -> str:
    """A line with the paths by which the launcher and the sample are reached from here."""
    here, found = Path.cwd(), shutil.which("ats")
    sample = next((it for it in SAMPLES if it.exists()), SAMPLES[0])
    own = HOME / "ats"
    called = "./ats" if here == HOME else "ats" if found and Path(found).resolve() == own else shlex.quote(str(own))
    line = line.replace("archive.json", shlex.quote(str(sample.relative_to(here) if here in sample.parents else sample)))
    return re.sub(r"(?:^|(?<=[ (]))ats (?=[a-z-])", lambda _: called + " ", line)


# Help


def overview(text: str) -> str:
    known = {command.name: command for command in commands.commands(text)}
    lines = [filled(commands.ABOUT)]
    for role, who in ROLES.items():
        lines += ["", f"{role}, {who}"]
        for name in (name for name, entry in ENTRIES.items() if entry["by"] == role):
            lines.append(f"  {' '.join([name, *known[name].words]):36}  {ENTRIES[name]['does']}")
    return "\n".join([*lines, "", *(filled(f"{as_typed(typed)}: {as_typed(does)}", "  ", "") for typed, does in commands.OPTIONS.items())])


def page(text: str, command: Command) -> str:
    means, own = commands.words(text), commands.ends(command)
    lines = [" ".join(["ats", command.name, *command.words]), filled(commands.plain(f"{command.does}."), "  "), ""]
    lines += [filled(f"{word}: {commands.plain(means[word])}", "  ", "") for word in command.words]
    lines += ["", filled(f"With status 0: {commands.prints(text, command.name)}", "  ", "")]
    lines += [filled(f"{status}: {commands.plain(when)}", "  ", "")
              for status, _, when in commands.statuses(text)[1:] if int(status) in own]
    if command.name in commands.EXAMPLES:
        lines += ["", "Example"]
        lines += [f"  {as_typed(commands.EXAMPLES[name])}" for name in (*commands.before(command.name), command.name)]
    return "\n".join(lines)


def help_of(words: "list[str]") -> int:
    text = commands.formats()
    found = next((command for command in commands.commands(text) if [command.name] == words), None)
    if words and not found:
        return 2  # the program is asked, and its refusal explained
    print(page(text, found) if found else overview(text))
    return 0


def version(state: str) -> int:
    """Which commit this is, and whether its program is proved. The package has a file that says so."""
    packed = HOME / "version"
    if packed.exists():
        named = packed.read_text(encoding="utf-8").strip()
    else:
        ran = subprocess.run(["git", "-C", HOME, "describe", "--always", "--abbrev=12", "--dirty"], capture_output=True, text=True, check=False)
        proved = "proved on this machine" if state else "not proved on this machine (./prove proves it)"
        named = f"commit {ran.stdout.strip() or 'unknown'}, {proved}"
    print(f"ats, {named}\nformats of an index and its proofs: 1 and 2; words by Unicode 18.0")
    return 0


# Words


def unknown(text: str, name: str) -> str:
    names = [command.name for command in commands.commands(text)]
    near = difflib.get_close_matches(name, names, 1)
    return f"there is no command '{name}'" + (f": did you mean {near[0]}?" if near else f": {as_typed('ats help')} has them all")


def shape_of(word: str, given: str) -> str:
    """What a word must be, if the given one is not."""
    if word.endswith("ROOT") and not re.fullmatch("[0-9a-f]{64}", given, re.A):
        wrong = f"has {len(given)}" if len(given) != 64 else "has capital letters" if re.fullmatch("[0-9a-fA-F]+", given) else "has others"
        return f"must have 64 hex digits{'' if len(given) != 64 else ' in lower case'}, this {wrong}"
    if word == "ALG" and given not in ("tra", "tnra"):
        return f"must be tra or tnra, this is '{given}'"
    if word in ("R", "NUMBER", "DOC", "CONNECTIONS") and not re.fullmatch("0|[1-9][0-9]{0,8}", given, re.A):
        return f"must be a number of 1 to 9 digits without a leading zero, this is '{given}'"
    if word == "CONNECTIONS" and not 1 <= int(given) <= 65535:
        return f"must be 1 to 65535, this is {given}"
    return ""


def fault_of_words(text: str, words: "list[str]") -> str:
    """What is wrong with words that are those of no command."""
    if any("\ud800" <= letter <= "\udfff" for word in words for letter in word):
        return "a word is not UTF-8"
    command = next((it for it in commands.commands(text) if it.name == words[0]), None)
    if command is None:
        return unknown(text, words[-1] if words[0] in HELP else words[0])
    takes, given = f"{command.name} takes {' '.join(command.words)}", words[1:]
    if len(given) != len(command.words):
        quotes = "; put a query of several words in quotes" if "QUERY" in command.words and len(given) > len(command.words) else ""
        return f"{takes}; that is {len(command.words)} words, and here are {len(given)}{quotes}"
    wrong = ((word, shape_of(word, one)) for word, one in zip(command.words, given))
    return next((f"{takes}; {word} {must}" for word, must in wrong if must), takes)


def explain_words(text: str, words: "list[str]") -> None:
    if words:
        say(fault_of_words(text, words).encode("utf-8", "replace").decode())
    else:
        print(overview(text), file=sys.stderr)


def refuse_unknown(words: "list[str]") -> int:
    """Prints for words that begin with no command what the program would print. Ends with 1 if they begin with one."""
    text = commands.formats()
    names = [command.name for command in commands.commands(text)]
    if words and words[0] in names:
        return 1
    print(commands.usage(text), flush=True)
    explain_words(text, words)
    return 0


# While the program runs, and after it


def slow(words: "list[str]") -> int:
    """What a command is doing that has not ended yet. Words of no command have long been refused."""
    command = next((it for it in commands.commands(commands.formats()) if it.name == words[0]), None)
    if command:
        say(explain.doing(command, words[1:]))
    return 0


def fault(status: int, program: str, line: str, words: "list[str]") -> int:
    text = commands.formats()
    if status == 2:
        explain_words(text, words)
        return 0
    command = next(it for it in commands.commands(text) if it.name == words[0])
    for found in explain.find(text, command, words[1:], status, line or explain.line_again(program, words, status)):
        say(found)
    return 0


def main(verb: str = "", *words: str) -> int:
    if verb in HELP:
        return help_of(list(words))
    if verb == "version":
        return version(words[0])
    if verb == "unknown":
        return refuse_unknown(list(words))
    if verb == "slow":
        return slow(list(words))
    return fault(int(words[0]), words[1], words[2], list(words[3:]))


if __name__ == "__main__":
    sys.exit(main(*sys.argv[1:]))
