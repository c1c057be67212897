"""What the tests share: the folder of a test, runs of `mdvsp-plan`, and the built program."""

import contextlib
import io
import os
import sys
import tempfile
import unittest

from mdvsp import command

TOP = os.path.dirname(os.path.dirname(os.path.dirname(os.path.abspath(__file__))))
PACKAGE = os.path.join(TOP, "python")
TOWN = "examples/town"
PROGRAMS = ("bin/mdvsp", "crates/mdvsp_main/out/mdvsp_main")
sys.dont_write_bytecode = True


def program():
    """Returns the built program; where none is built and none was named, the test is skipped."""
    named = os.environ.get("MDVSP")
    if named:
        return named
    for path in PROGRAMS:
        if os.access(os.path.join(TOP, path), os.X_OK):
            return os.path.join(TOP, path)
    raise unittest.SkipTest("no program is built, and the environment variable MDVSP names none")


@contextlib.contextmanager
def at_the_top():
    """Has the repository's top as the folder in which commands run."""
    before = os.getcwd()
    os.chdir(TOP)
    try:
        yield
    finally:
        os.chdir(before)


def run(*words):
    """Runs `mdvsp-plan` from the repository's top; returns its status, its output, and what is on standard error."""
    said = io.StringIO()
    with tempfile.TemporaryFile("w+", encoding="utf-8", newline="") as out, at_the_top():
        with contextlib.redirect_stdout(out), contextlib.redirect_stderr(said):
            try:
                status = command.main([str(it) for it in words])
            except SystemExit as error:
                status = error.code
        out.seek(0)
        return status, out.read(), said.getvalue()


def page(path):
    """Returns the text of a file of the repository."""
    with open(os.path.join(TOP, path), encoding="utf-8") as file:
        return file.read()


class Folder(unittest.TestCase):
    """A test with a folder of its own, in which it writes sheets and texts."""

    maxDiff = None

    def setUp(self):
        self.folder = tempfile.TemporaryDirectory()
        self.addCleanup(self.folder.cleanup)

    def path(self, name):
        return os.path.join(self.folder.name, name)

    def write(self, name, data):
        os.makedirs(os.path.dirname(self.path(name)), exist_ok=True)
        with open(self.path(name), "wb") as file:
            file.write(data if isinstance(data, bytes) else data.encode())
        return self.path(name)

    def read(self, name):
        with open(self.path(name), encoding="utf-8", newline="") as file:
            return file.read()

    def document(self, name, blocks, cost, bound=90000000):
        rows = ["result,1,open", f"cost,{cost}", f"bound,{bound}", "nodes,1"]
        rows += [",".join(("block", *block)) for block in blocks]
        return self.write(name, "\n".join(rows) + "\n")
