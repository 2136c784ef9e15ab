"""nginx over a folder, with the configuration of service/nginx.conf but for names, certificates and the limit of one
address."""

import os
import re
import shutil
import socket
import subprocess
import time
from pathlib import Path
from typing import Any

HOME = Path(__file__).resolve().parent.parent.parent


def program() -> "str | None":
    return shutil.which("nginx", path=os.environ.get("PATH", "") + ":/usr/sbin:/usr/local/sbin")


def free_port() -> int:
    with socket.socket() as it:
        it.bind(("127.0.0.1", 0))
        return it.getsockname()[1]


def connected(port: int, process: "subprocess.Popen[Any]") -> socket.socket:
    """A link to a process that is to listen there."""
    end = time.monotonic() + 60
    while process.poll() is None and time.monotonic() < end:
        try:
            return socket.create_connection(("127.0.0.1", port), 5)
        except OSError:
            time.sleep(0.1)
    raise OSError(f"{process.args[0]} does not listen at port {port}")


def configuration(folder: Path, port: int) -> str:
    """The server of an archive's folder, as owners get it, on this machine without TLS."""
    server = (HOME / "service" / "nginx.conf").read_text(encoding="utf-8").split("server {")[1]
    server = re.sub(r"\n *(ssl_|limit_conn|listen|server_name)[^\n]*", "", server)
    server = server.replace("root /srv/ats;", f"root {folder}; listen 127.0.0.1:{port};")
    user = "user root;\n" if os.geteuid() == 0 else ""
    kept = " ".join(f"{kind}_temp_path tmp;" for kind in ("client_body", "proxy", "fastcgi", "uwsgi", "scgi"))
    return (
        f"{user}daemon off;\nworker_processes 1;\npid nginx.pid;\nerror_log error.log;\n"
        "events { worker_connections 256; }\nhttp {\n"
        "log_format brief '$request_method $uri $status $body_bytes_sent';\n"
        f"access_log access.log brief;\n{kept}\nserver {{{server}}}\n"
    )


class Nginx:
    """A running nginx at `base`."""

    def __init__(self, folder: Path, work: Path):
        port = free_port()
        self.base, self.work = f"http://127.0.0.1:{port}", work
        work.mkdir(exist_ok=True)
        (work / "nginx.conf").write_text(configuration(folder, port), encoding="utf-8")
        words = [str(program()), "-p", f"{work}/", "-c", str(work / "nginx.conf"), "-e", str(work / "error.log")]
        self.process = subprocess.Popen(words)
        connected(port, self.process).close()

    def requests(self) -> "list[str]":
        """A line for each request: method, path, status, bytes."""
        time.sleep(0.1)
        return (self.work / "access.log").read_text(encoding="utf-8").splitlines()

    def __enter__(self) -> "Nginx":
        return self

    def __exit__(self, *_: object) -> None:
        self.process.terminate()
        self.process.wait()
