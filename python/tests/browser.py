"""A headless Chromium that takes a picture of a page, and says what the page asked for and what went wrong in it."""

import json
import os
import shutil
import subprocess

NAMES = ("chromium", "chromium-browser", "google-chrome")
SECONDS = 300
# What the browser would fetch for itself is switched off; what a page asks for isn't.
QUIET = ("--headless", "--no-sandbox", "--disable-gpu", "--hide-scrollbars", "--no-first-run",
         "--disable-background-networking", "--disable-component-update", "--disable-default-apps",
         "--disable-extensions", "--disable-sync", "--enable-logging=stderr")
# Who asks for what the browser fetches for itself.
NOBODY = "not an origin"


def find():
    """Returns the path of the browser, or None."""
    return next((path for path in map(shutil.which, NAMES) if path), None)


class Visit:
    """A page as the browser shows it at a width: a picture, the errors of its console, and the addresses it asked for.

    Windows have a least width, so a narrow page stands in a frame.
    """

    def __init__(self, browser, page, folder, width, dark=False):
        self.picture = os.path.join(folder, f"page{width}{'dark' if dark else ''}.png")
        log = os.path.join(folder, f"net{width}.json")
        frame = os.path.join(folder, f"frame{width}.html")
        with open(frame, "w", encoding="utf-8") as file:
            file.write(f'<!doctype html><style>body{{margin:0}}iframe{{border:0;width:{width}px;height:1200px}}</style>'
                       f'<iframe src="file://{page}"></iframe>')
        scheme = ["--blink-settings=preferredColorScheme=0"] if dark else []
        done = subprocess.run(
            [browser, *QUIET, *scheme, f"--user-data-dir={folder}/profile", f"--log-net-log={log}",
             f"--window-size={max(width, 500)},1200", f"--screenshot={self.picture}", f"file://{frame}"],
            capture_output=True, timeout=SECONDS, check=False)
        said = done.stderr.decode("utf-8", "replace")
        self.errors = [line for line in said.splitlines() if ":CONSOLE" in line]
        with open(log, encoding="utf-8") as file:
            self.asked_for = sorted(asked_for(file))


def asked_for(log):
    """Yields the addresses that pages asked the network for: those of a log that the browser didn't ask for itself.

    Each event of the log has a line of its own. Files aren't in it.
    """
    for line in log:
        if '"initiator"' not in line:
            continue
        params = json.loads(line.strip().rstrip(",")).get("params", {})
        if params.get("initiator", NOBODY) != NOBODY:
            yield params["url"]
