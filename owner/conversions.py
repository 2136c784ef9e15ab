"""Titles and texts of HTML, PDF, mail and JSON, for `collect.py`. They are conversions: what one loses or misreads, no root
speaks of. Nothing is proved of them. Python 3.9 and its standard library are all that most need; PDF needs `pdftotext` of
Poppler.

    conversions.of_html(b"<title>Fox</title><p>red <b>fox</b>")     # Converted("Fox", "red fox")
"""
import email
import email.policy
import html.parser
import json
import re
import signal
import subprocess
import tempfile
import threading
from typing import NamedTuple

from archive_files import TooLong

SECONDS = 60  # of one run of pdftotext

HIDDEN = frozenset(("nav", "script", "style", "template"))
# The elements that begin and end a line.
BLOCKS = frozenset("""address article aside blockquote body br caption dd details div dl dt fieldset figcaption figure footer
    form h1 h2 h3 h4 h5 h6 head header hr html legend li main ol option p pre section select summary table tbody td
    tfoot th thead title tr ul""".split())


class Converted(NamedTuple):
    """What a file says: its title, which may be empty, and its text."""

    title: str
    text: str


class NotConverted(Exception):
    """The file is not of the form that its name says."""


class TooSlow(Exception):
    """The conversion took more than SECONDS."""


class Lines(html.parser.HTMLParser):
    """What a page shows, so far. A block is a line and other blanks are single spaces, but in `pre` all stays as it is."""

    def __init__(self) -> None:
        super().__init__(convert_charrefs=True)
        self.lines: list[str] = []
        self.line = self.title = ""
        self.hidden = self.kept = 0  # how many elements are open whose content is not shown, or keeps its blanks
        self.in_title = self.begins = False

    def handle_starttag(self, tag: str, attrs: list) -> None:
        self.break_at(tag)
        self.begins = tag == "pre"  # a line feed there is none of the text
        self.hidden += tag in HIDDEN
        self.kept += tag == "pre"
        self.in_title = tag == "title" and not self.title  # a drawing may have one, too

    def handle_endtag(self, tag: str) -> None:
        self.break_at(tag)
        self.hidden -= tag in HIDDEN and self.hidden > 0
        self.kept -= tag == "pre" and self.kept > 0
        self.in_title = False

    def handle_data(self, data: str) -> None:
        data, self.begins = data[self.begins and data.startswith("\n"):], False
        if self.in_title:
            self.title += data
        elif not self.hidden:
            *ended, last = data.split("\n") if self.kept else [re.sub(r"\s+", " ", data)]
            for each in ended:
                self.line += each
                self.end_line()
            self.line += last

    def break_at(self, tag: str) -> None:
        if tag in BLOCKS:
            self.end_line()

    def end_line(self) -> None:
        line = self.line.rstrip() if self.kept else one_line(self.line)
        if line or self.kept and self.lines and self.lines[-1]:
            self.lines.append(line)
        self.line = ""


def one_line(text: str) -> str:
    return " ".join(text.split())


def of_html(data: bytes) -> Converted:
    """The title and the text of a page in UTF-8. It raises UnicodeDecodeError if the page is in another encoding."""
    lines = Lines()
    try:
        lines.feed(data.decode("utf-8"))
        lines.close()
    except UnicodeDecodeError:
        raise
    except Exception:  # what the parser raises for malformed declarations differs by its version
        raise NotConverted("it is no HTML that Python reads") from None
    lines.end_line()
    return Converted(one_line(lines.title), "\n".join(lines.lines).rstrip("\n"))


def of_mail(data: bytes) -> Converted:
    """The subject of a message, and who wrote it and when with its text. Attachments are left out."""
    try:
        message = email.message_from_bytes(re.sub(rb"(?m)^>(>*From )", rb"\1", data), policy=email.policy.default)
        heads = [f"{name}: {one_line(str(message[name]))}" for name in ("From", "Date") if message[name]]
        body = message.get_body(("plain", "html"))
        text = str(body.get_content()) if body else ""
        if body and body.get_content_subtype() == "html":
            text = of_html(text.encode("utf-8", "replace")).text
        title = one_line(str(message["Subject"] or ""))
    except Exception:  # what the parser raises for malformed messages differs by its version
        raise NotConverted("it is no message that Python reads") from None
    return Converted(spelt(title), spelt("\n".join([*heads, "", text.replace("\r\n", "\n").rstrip("\n")])))


def spelt(text: str) -> str:
    """The text as UTF-8 can spell it."""
    return text.encode("utf-8", "replace").decode("utf-8")


def of_json(data: bytes, text_field: str, title_field: str) -> Converted:
    """Two members of an object."""
    try:
        item = json.loads(data.decode("utf-8"))
    except UnicodeDecodeError:
        raise
    except (ValueError, RecursionError):
        raise NotConverted("it is no JSON") from None
    if not isinstance(item, dict) or not isinstance(item.get(text_field), str):
        raise NotConverted(f"it has no text {text_field!r}")
    title = item.get(title_field)
    return Converted(spelt(one_line(title)) if isinstance(title, str) else "", spelt(item[text_field]))


def text_of_pdf(data: bytes, limit: int) -> bytes:
    """What `pdftotext` prints for the file. It raises TooLong if that has more bytes than the limit."""
    command = ["pdftotext", "-q", "-enc", "UTF-8", "-", "-"]
    with tempfile.TemporaryFile() as file:
        file.write(data)
        file.seek(0)
        with subprocess.Popen(command, stdin=file, stdout=subprocess.PIPE, stderr=subprocess.DEVNULL) as process:
            timer = threading.Timer(SECONDS, process.kill)
            timer.start()
            text = process.stdout.read(limit + 1)
            if len(text) > limit:
                process.kill()
            process.wait()
            timer.cancel()
    if len(text) > limit:
        raise TooLong
    if process.returncode == -signal.SIGKILL:
        raise TooSlow(f"pdftotext took more than {SECONDS} seconds, or was killed")
    if process.returncode != 0:
        raise NotConverted("pdftotext cannot read it")
    return text
