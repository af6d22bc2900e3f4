"""A host that gives and expects bytes: over pipes to an application in this program, or in a program of its own."""

import contextlib
import os
import subprocess
import sys
import threading

from . import PYTHON
from .vectors import READY, hexed

SECONDS = 60


class FakeHost:
    """The host's end of an application: `give` bytes to it, `expect` bytes from it."""

    def __init__(self, case, to_app, from_app):
        self._case, self._to_app, self._from_app = case, to_app, from_app

    def give(self, *digits):
        self._to_app.write(hexed(*digits))
        self._to_app.flush()

    def expect(self, *digits):
        """Takes as many bytes as these are, and compares them."""
        due = hexed(*digits)
        got = self._from_app.read(len(due))
        self._case.assertEqual(got.hex(), due.hex())

    def ask(self, given, *due):
        """Gives a frame and expects frames."""
        self.give(given)
        self.expect(*due)

    def start(self, restore="00000001 01"):
        """Gives Restore and expects Ready."""
        self.ask(restore, READY)

    def close(self):
        self._to_app.close()

    def rest(self):
        """All that the application still gives."""
        return self._from_app.read()


@contextlib.contextmanager
def running(case, app):
    """A host whose application runs in a thread. At the end the host closes, and the thread has to end.

    What the application raises is raised here.
    """
    app_in, host_out = os.pipe()
    host_in, app_out = os.pipe()
    raised = []

    def run():
        with os.fdopen(app_in, "rb") as source, os.fdopen(app_out, "wb") as sink:
            try:
                app.run(source, sink)
            except BaseException as fault:
                raised.append(fault)

    thread = threading.Thread(target=run, daemon=True)
    thread.start()
    try:
        with os.fdopen(host_out, "wb") as to_app, os.fdopen(host_in, "rb") as from_app:
            host = FakeHost(case, to_app, from_app)
            yield host
            host.close()
            case.assertEqual(host.rest(), b"")
    finally:
        thread.join(SECONDS)
    case.assertFalse(thread.is_alive())
    if raised:
        raise raised[0]


class Child:
    """A program of its own, with its status and what it wrote to standard error once it has ended."""

    def __init__(self, host, process):
        self.host, self._process = host, process
        self.status, self.errors = None, ""

    def end(self):
        self.host.close()
        rest = self.host.rest()
        self.errors = self._process.stderr.read().decode()
        self.status = self._process.wait(SECONDS)
        return rest


@contextlib.contextmanager
def child(case, *words, **environment):
    """A program of Python with these words, whose host is this test."""
    pipes = {"stdin": subprocess.PIPE, "stdout": subprocess.PIPE, "stderr": subprocess.PIPE}
    with subprocess.Popen(
        [sys.executable, "-W", "error", *words], env={**os.environ, "PYTHONPATH": PYTHON, **environment}, **pipes
    ) as process:
        try:
            yield Child(FakeHost(case, process.stdin, process.stdout), process)
        finally:
            process.kill()
