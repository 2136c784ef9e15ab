"""Files of a folder, or of one that a web server has, read within limits of size and time: what comes is hostile. `follow.py`
uses it, and nothing is proved of it. Python 3.9 and its standard library are all that it needs.

    source.Source("https://example.org/archive").file("publication.txt", 1 << 20)
"""
import contextlib
import http.client
import os
import re
import signal
import time
import urllib.error
import urllib.parse
import urllib.request
from typing import IO, Iterator, NoReturn

from archive_files import Fault, TooLong, printable, read_within, reason, shown

SECONDS = 30  # of one file
IN_ALL = 300  # seconds of one source


class TooSlow(Exception):
    """The time is over. It is no OSError, which those who try one address after another catch."""


class NoRedirects(urllib.request.HTTPRedirectHandler):
    def redirect_request(self, req: urllib.request.Request, fp: IO[bytes], code: int, msg: str, headers: http.client.HTTPMessage,
                         newurl: str) -> NoReturn:
        raise Fault(f"the server redirects to {printable(newurl)}: if you trust that address, give it as SOURCE", 3)


OPENER = urllib.request.build_opener(NoRedirects)


@contextlib.contextmanager
def within(seconds: float) -> Iterator[None]:
    """Ends the block by TooSlow after this time, whatever it waits for."""
    def ring(*_: object) -> None:
        raise TooSlow

    signal.signal(signal.SIGALRM, ring)
    signal.setitimer(signal.ITIMER_REAL, seconds)
    try:
        yield
    finally:
        signal.setitimer(signal.ITIMER_REAL, 0)


def fetched(url: str, limit: int) -> bytes:
    """What the server has under this address."""
    with OPENER.open(url) as answer:
        data = answer.read(limit + 1)
        if len(data) <= limit and answer.length:
            raise http.client.IncompleteRead(data, answer.length)
    if len(data) > limit:
        raise TooLong
    return data


class Source:
    """A folder, or the address of one, from which files are read within limits."""

    def __init__(self, word: str) -> None:
        self.end = time.monotonic() + IN_ALL
        self.word = word
        self.is_address = re.match("[A-Za-z][A-Za-z0-9+.-]*:", word) is not None and not os.path.isdir(word)
        if self.is_address and not is_web_folder(word):
            raise Fault(f"{printable(word)} is no address of a folder by http or https", 2)
        if not self.is_address and not os.path.isdir(word):
            raise Fault(f"{shown(word)} is no folder, and no address by http or https", 2)

    def file(self, name: str, limit: int) -> bytes:
        left = self.end - time.monotonic()
        try:
            with within(max(min(SECONDS, left), 0.001)):
                if self.is_address:
                    return fetched(f"{self.word.rstrip('/')}/{name}", limit)
                return read_within(os.path.join(self.word, name), limit)
        except TooSlow:
            why = f"it took more than {SECONDS} seconds" if left > SECONDS else f"the run took {IN_ALL} seconds: run it again"
        except TooLong:
            why = f"it has more than {limit} bytes"
        except urllib.error.HTTPError as error:
            why = f"the server answers with status {error.code}"
        except urllib.error.URLError as error:
            why = printable(str(error.reason))
        except OSError as error:
            why = reason(error)
        except (http.client.HTTPException, ValueError) as error:
            why = f"the server answers out of form: {type(error).__name__}"
        raise Fault(f"{name} cannot be read from {printable(self.word)}: {why}", 3)


def is_web_folder(word: str) -> bool:
    try:
        parts = urllib.parse.urlsplit(word)
        return (parts.scheme in ("http", "https") and bool(parts.hostname) and not parts.query and not parts.fragment
                and re.fullmatch("[!-~]+", word) is not None)
    except ValueError:
        return False
