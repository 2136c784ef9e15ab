"""Signatures of publications, by minisign or by ssh-keygen: how they are made, and how a reader has them checked. Nothing is
proved of it. Python 3.9 and its standard library are all that it needs, and the tool of the key.

    signatures.sign("minisign.key", "publication-1.txt")     # writes publication-1.txt.minisig
"""
import os
import shutil
import subprocess
import tempfile
from typing import Callable, NamedTuple

from archive_files import Fault, TooLong, read_within, reason, shown

MAX_SIGNATURE = 1 << 16
MAX_KEY = 1 << 20
NAMESPACE = "ats"  # that signatures by ssh-keygen have
TOOLS = {"minisign": "minisign", "ssh-keygen": "openssh-client"}  # with the Debian package that has it


class BadSignature(Exception):
    """The signature is not one of the key."""


def tool_of(key: str) -> str:
    """The tool that signs with a key, by the first words of its file."""
    try:
        head = read_within(key, MAX_KEY)
    except (OSError, TooLong) as error:
        why = reason(error) if isinstance(error, OSError) else "it is no key"
        raise Fault(f"the key {shown(key)} cannot be read: {why}") from None
    tool = "minisign" if head.startswith(b"untrusted comment:") else "ssh-keygen"
    need(tool)
    return tool


def need(tool: str) -> None:
    if shutil.which(tool) is None:
        raise Fault(f"there is no {tool}: install {TOOLS[tool]}", 3)


def name_of_signature(tool: str, name: str) -> str:
    return name + {"minisign": ".minisig", "ssh-keygen": ".sig"}[tool]


def sign(key: str, path: str) -> None:
    """Writes the signature of a file beside it. The tool may ask for the key's password."""
    tool = tool_of(key)
    words = {"minisign": ["minisign", "-S", "-s", key, "-m", path],
             "ssh-keygen": ["ssh-keygen", "-q", "-Y", "sign", "-f", key, "-n", NAMESPACE, path]}[tool]
    status = subprocess.run(words, stdout=2, check=False).returncode
    if status or not os.path.exists(name_of_signature(tool, path)):
        raise Fault(f"{tool} does not sign by {shown(key)}: it ended with status {status}, and says why above")


class Check(NamedTuple):
    """By what a reader has publications checked: a tool, and the file of the owner's public key or of the signers."""

    tool: str
    key: str

    def of(self, name: str, data: bytes, file: Callable[[str, int], bytes]) -> str:
        """Who signed the publication of this name. It raises BadSignature if the key's owner did not, and Fault if the
        signature cannot be had."""
        signature = file(name_of_signature(self.tool, name), MAX_SIGNATURE)
        with tempfile.TemporaryDirectory() as folder:
            path = os.path.join(folder, "publication")
            for own, content in ((path, data), (path + ".signature", signature)):
                with open(own, "wb") as stored:
                    stored.write(content)
            return self.tried(path, data)

    def tried(self, path: str, data: bytes) -> str:
        if self.tool == "minisign":
            self.run("minisign", "-V", "-q", "-m", path, "-x", path + ".signature", "-p", self.key)
            return f"the key of {os.path.basename(self.key)}"
        found = self.run("ssh-keygen", "-Y", "find-principals", "-s", path + ".signature", "-f", self.key)
        who = found.splitlines()[0]
        self.run("ssh-keygen", "-Y", "verify", "-f", self.key, "-I", who, "-n", NAMESPACE, "-s", path + ".signature", given=data)
        return who

    def run(self, *words: str, given: bytes = b"") -> str:
        done = subprocess.run(words, input=given, stdout=subprocess.PIPE, stderr=subprocess.PIPE, check=False)
        if done.returncode:
            raise BadSignature
        return done.stdout.decode("utf-8", "replace")
