"""The program as it serves on a free port of loopback."""
import http.client
import itertools
import os
import resource
import select
import signal
import socket
import subprocess

from support import program
from support.callers import OFFICE

# another program may take a free port before the office binds it
TRIES = 5


def free_port():
    """A port of loopback on which nothing listens."""
    with socket.socket() as it:
        it.bind(("127.0.0.1", 0))
        return it.getsockname()[1]


def token_file(path, text):
    """Makes a file of a token, which its user alone can read, or writes it again; with the line ends that the text has."""
    with open(os.open(path, os.O_WRONLY | os.O_CREAT | os.O_TRUNC, 0o600), "w", encoding="utf-8", newline="") as it:
        it.write(text)


class Office:
    """The program as it serves, with these words. It has the office's token, or the one of a token file, and no more memory
    than so many bytes of addresses, if they are given."""

    def __init__(self, *words, token_file=None, seconds=60, memory=None, path=None):
        self.seconds, self.path = seconds, path or program.path()
        token = ["--token-file", token_file] if token_file else ["--token", OFFICE]
        for tries in itertools.count(1):
            self.port = free_port()
            self.peer = http.client.HTTPConnection("127.0.0.1", self.port, timeout=seconds)
            self.words = [str(it) for it in ("serve", "--port", self.port, *token, *words)]
            line = self._start(memory)
            if line == f"bsp_office: listening on 127.0.0.1:{self.port}\n":
                return
            self.kill()
            if tries == TRIES or "is in use" not in self.opened + line:
                raise RuntimeError(f"{' '.join(self.words)}: it does not listen, and printed {self.opened + line!r}")

    def _start(self, memory):
        """Starts the program: the line that it prints after the one on its book."""
        limit = (lambda: resource.setrlimit(resource.RLIMIT_AS, (memory, memory))) if memory else None
        self.process = subprocess.Popen([self.path, *self.words], stderr=subprocess.PIPE, text=True, preexec_fn=limit)
        select.select([self.process.stderr], [], [], self.seconds)
        # what it says of the book that it opened, before it listens
        self.opened = self.process.stderr.readline() if "--db" in self.words else ""
        return self.process.stderr.readline()

    def __enter__(self):
        return self

    def __exit__(self, *_):
        self.stop()

    def ask(self, method, path, token=None, body=None, media=None):
        """The status, the media type and the bytes of the reply. All requests go over one connection."""
        fields = {"Bsp-Token": token, "Content-Type": media}
        body = body.encode() if isinstance(body, str) else body
        self.peer.request(method, path, body or None, {name: it for name, it in fields.items() if it is not None})
        reply = self.peer.getresponse()
        return reply.status, reply.getheader("Content-Type"), reply.read()

    def close(self):
        """Closes the connection of `ask`; the next request opens another."""
        self.peer.close()

    def ended(self):
        """Waits until it ends by itself, as after --connections N: its status and what else it printed on standard error."""
        self.close()
        try:
            return self.process.wait(self.seconds), self.process.stderr.read()
        except subprocess.TimeoutExpired:
            self.kill()
            return "it goes on", ""

    def stop(self):
        """Ends it by SIGTERM, unless it has ended."""
        self.kill(signal.SIGTERM)

    def kill(self, by=signal.SIGKILL):
        """Ends it by SIGKILL, or by another signal."""
        self.close()
        self.process.send_signal(by)
        self.process.wait()
        self.process.stderr.close()
