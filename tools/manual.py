"""Writes the manual page and the completions of shells, from what the launcher's help is made of (launcher/commands.py).

usage: python3 tools/manual.py man | bash | zsh | fish

Prints the page or the completion.
"""

import re
import sys
from pathlib import Path

sys.path.append(str(Path(__file__).resolve().parent.parent / "launcher"))
from commands import ABOUT, EXAMPLES, FILES, FORMATS, OPTIONS, commands, ends, lines, outputs, statuses, table  # noqa: E402
from commands import plain as unmarked  # noqa: E402


def plain(markdown: str) -> str:
    """Text without links and marks, in which roff reads nothing as its own."""
    return re.sub(r"^([.'])", r"\\&\1", unmarked(markdown).replace("\\", "\\e").replace("-", "\\-"), flags=re.M)


def tagged(head: str, body: str, font: str = ".B") -> "list[str]":
    """An item: what it is of, and its text."""
    return [".TP", f"{font} {plain(head)}", f"{plain(body[0].upper() + body[1:])}."]


def manual(text: str) -> str:
    page = ['.TH ATS 1 "" "ats" "User Commands"', ".SH NAME", "ats \\- search with proofs in an archive that one root names", ".SH SYNOPSIS"]
    for command in commands(text):
        page += [f".B ats {plain(command.name)}", f".I {plain(' '.join(command.words))}", ".br"]
    page += [".SH DESCRIPTION", plain(ABOUT), ".SH COMMANDS"]
    for command in commands(text):
        page += [*tagged(" ".join([command.name, *command.words]), command.does), ".IP",
                 f"Ends with {', '.join(map(str, ends(command)))}."]
        page += [".IP", f".nf\n{plain(EXAMPLES[command.name])}\n.fi"] if command.name in EXAMPLES else []
    page += [".SH HELP", *(line for option in OPTIONS.items() for line in tagged(*option)), ".SH WORDS"]
    page += [line for word, means in table(text, "Each word has its place") for line in tagged(word, means, ".I")]
    page += [".SH OUTPUT", *(line for item in outputs(text) for line in (".PP", ".nf" if "\n\n" in item else ".fi", plain(item).strip(), ".fi"))]
    page += [".SH EXIT STATUS"]
    for status, printed, when in statuses(text):
        page += tagged(status, f"{when}. It prints {printed}")
    page += [".SH LINES"]
    page += [line for head, printed, when in lines(text) for line in tagged(head + printed, when)]
    return "\n".join(page) + "\n"


def bash(text: str) -> str:
    found = commands(text)
    takes = "\n".join(f'        {command.name}) words="{" ".join(command.words)}" ;;' for command in found)
    return f"""# Completes the words of ats in bash.
_ats() {{
    local words
    [ "$COMP_CWORD" -gt 1 ] || {{ COMPREPLY=($(compgen -W "{" ".join(command.name for command in found)}" -- "$2")); return; }}
    case ${{COMP_WORDS[1]}} in
{takes}
    esac
    set -- "$2" $words
    shift "$((COMP_CWORD - 1))" 2>/dev/null || return
    case $1 in
        ALG) COMPREPLY=($(compgen -W "tra tnra" -- "${{COMP_WORDS[COMP_CWORD]}}")) ;;
        {"|".join(sorted(FILES))}) COMPREPLY=($(compgen -f -- "${{COMP_WORDS[COMP_CWORD]}}")) ;;
    esac
}}
complete -o filenames -F _ats ats
"""


def zsh(text: str) -> str:
    def kind(word: str) -> str:
        return "_files" if word in FILES else "(tra tnra)" if word == "ALG" else " "

    cases = []
    for command in commands(text):
        words = " ".join(f"'{place}:{word}:{kind(word)}'" for place, word in enumerate(command.words, 2))
        cases.append(f"    {command.name}) _arguments '1:command:' {words} ;;")
    names = " ".join(command.name for command in commands(text))
    return f"""#compdef ats
# Completes the words of ats in zsh.
if ((CURRENT == 2)); then
    compadd {names}
    return
fi
case $words[2] in
{chr(10).join(cases)}
esac
"""


def fish(text: str) -> str:
    lines = ["# Completes the words of ats in fish.", "complete -c ats -f"]
    for command in commands(text):
        words = " ".join(command.words)
        lines.append(f"complete -c ats -n __fish_use_subcommand -a {command.name} -d '{words}'")
        if FILES.intersection(command.words):
            lines.append(f"complete -c ats -n '__fish_seen_subcommand_from {command.name}' -F")
        if "ALG" in command.words:
            lines.append(f"complete -c ats -n '__fish_seen_subcommand_from {command.name}' -a 'tra tnra'")
    return "\n".join(lines) + "\n"


def main() -> int:
    makers = {"man": manual, "bash": bash, "zsh": zsh, "fish": fish}
    if len(sys.argv) != 2 or sys.argv[1] not in makers:
        print(__doc__, file=sys.stderr)
        return 2
    sys.stdout.write(makers[sys.argv[1]](FORMATS.read_text(encoding="utf-8")))
    return 0


if __name__ == "__main__":
    sys.exit(main())
