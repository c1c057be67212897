"""The package as it is installed: built without a network, by its own backend."""

import importlib.util
import os
import subprocess
import sys
import tempfile
import unittest
import zipfile

import mdvsp
from mdvsp import command

from .support import PACKAGE, TOP, Folder, run

sys.path.insert(0, PACKAGE)
import build_backend  # noqa: E402


class Wheels(Folder):
    def wheel(self):
        return os.path.join(self.folder.name, build_backend.build_wheel(self.folder.name))

    def test_what_a_wheel_says(self):
        with zipfile.ZipFile(self.wheel()) as wheel:
            names = set(wheel.namelist())
            info = f"mdvsp-{mdvsp.__version__}.dist-info"
            self.assertIn(f"Version: {mdvsp.__version__}\n", wheel.read(f"{info}/METADATA").decode())
            self.assertIn("mdvsp-plan = mdvsp.command:main\n", wheel.read(f"{info}/entry_points.txt").decode())
            record = {line.split(",")[0] for line in wheel.read(f"{info}/RECORD").decode().splitlines()}
            self.assertEqual(record, names)
            self.assertTrue({"mdvsp/page.css", "mdvsp/command.py", "mdvsp/__main__.py"} <= names)

    def test_it_runs_from_a_wheel(self):
        words = ["report", "examples/two_trips.csv", "examples/two_trips_plan.csv", "-o", self.path("p.html"),
                 "--program", "/dev/null"]
        done = subprocess.run([sys.executable, "-m", "mdvsp", *words], cwd=TOP, capture_output=True, check=False,
                              env={**os.environ, "PYTHONPATH": self.wheel()})
        self.assertEqual((done.returncode, done.stdout), (0, b""))
        self.assertIn("--trip:", self.read("p.html"))

    @unittest.skipUnless(importlib.util.find_spec("pip"), "there is no pip, so nothing was installed by it")
    def test_pip_installs_it_without_a_network(self):
        with tempfile.TemporaryDirectory() as place:
            words = ["install", "--no-index", "--no-deps", "--target", place, "--quiet", PACKAGE]
            done = subprocess.run([sys.executable, "-m", "pip", *words], capture_output=True, check=False)
            self.assertEqual(done.returncode, 0, done.stderr.decode())
            self.assertTrue(os.path.isfile(os.path.join(place, "bin", "mdvsp-plan")))


class Helps(unittest.TestCase):
    def test_each_command_says_what_is_proved(self):
        for name, _, _ in command.COMMANDS:
            status, printed, told = run(name, "--help")
            self.assertEqual((status, told), (0, ""))
            self.assertIn("no part of what is proved", printed)

    def test_no_command(self):
        self.assertEqual(run()[0], 2)
        self.assertEqual(run("fly")[0], 2)


if __name__ == "__main__":
    unittest.main()
