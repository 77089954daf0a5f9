#!/usr/bin/env python3
"""The page of 'syncthing-audit report' in a real browser, Chromium: what it shows at the widths of a phone and of a desk, in both colour schemes, in print,
and what it says to whoever hears it.

    auditor/test/looked_at.py [DIRECTORY]     with a directory, pictures of the page are kept there
"""

import base64
import json
import os
import shutil
import subprocess
import sys
import tempfile
import unittest
from pathlib import Path

from exporting import PROGRAM, built, is_over, main, run

CHROMIUM = shutil.which("chromium")
WIDTHS = (390, 1280)
HOSTILE = "phone <script>document.title='x'</script> \u202egnp.exe"
NIGHTS = [{"at": f"2026-11-{day:02}T03:31:00Z", "status": status, "words": words, "wrong": wrong} for day, (status, words, wrong) in
          enumerate([(0, "in step", 0), (6, "in step as far as audited", 0), (1, "NOT in step", 2), (127, "no answer, status 127", 0), (1, "NOT in step", 2)], start=1)]
CELLS = [{"device": "A", "wrong": 2, "files": 12301, "bytes": 61300000000, "oldest": "2026-10-01T00:00:00Z", "oldest_name": "videos/" + "long/" * 30 + "a.mkv"},
         {"device": "B"}, {"device": "C", "left_out": "its command ended with exit status 255: ssh: connect to host off port 22: No route to host"}]
ANSWER = {"audit": "", "at": "2026-11-05T03:31:00Z", "seen": "2026-11-05T03:31:00Z", "status": 1,
          "text": f"docs: NOT in step\n\nto do in docs, from the top:\n  for a:\n    1. on B: copy it\n\n{'x' * 200}  (in docs)\n  {HOSTILE}: other bytes\n",
          "devices": [{"id": "A", "name": "laptop", "read": "2026-11-05T03:31:00Z"}, {"id": "B", "name": "nas"}, {"id": "C", "name": HOSTILE}],
          "folders": [{"id": "docs", "called": "docs (Documents)", "verdict": "NOT in step", "names": 9, "wrong": 2, "cells": CELLS}], "left_out": [{"what": "docs of C", "why": "it is off"}]}


class Browser:
    """Chromium without a window, asked over its pipe."""

    def __init__(self, room):
        self.number, self.events = 0, []
        to_browser, self.write_to = os.pipe()
        self.read_from, from_browser = os.pipe()
        command = [CHROMIUM, "--headless=new", "--no-sandbox", "--disable-gpu", "--disable-dev-shm-usage", f"--user-data-dir={room}", "--remote-debugging-pipe", "about:blank"]

        def give():
            """Gives the browser its ends of the pipes as 3 and 4, wherever they are."""
            ends = os.dup(to_browser), os.dup(from_browser)
            os.dup2(ends[0], 3)
            os.dup2(ends[1], 4)
        self.process = subprocess.Popen(command, pass_fds=(3, 4), preexec_fn=give, stdout=subprocess.DEVNULL, stderr=subprocess.DEVNULL, env={**os.environ, "HOME": str(room)})
        os.close(to_browser)
        os.close(from_browser)
        self.left, self.session = b"", None
        target = next(one for one in self.ask("Target.getTargets")["targetInfos"] if one["type"] == "page")
        self.session = self.ask("Target.attachToTarget", targetId=target["targetId"], flatten=True)["sessionId"]
        for domain in ("Page", "Runtime", "Log", "Network", "Accessibility"):
            self.ask(f"{domain}.enable")

    def message(self):
        """The next message."""
        while b"\0" not in self.left:
            more = os.read(self.read_from, 1 << 16)
            if not more:
                raise AssertionError("the browser ended")
            self.left += more
        text, _, self.left = self.left.partition(b"\0")
        return json.loads(text)

    def ask(self, method, **words):
        """What the browser answers."""
        self.number += 1
        asked = {"id": self.number, "method": method, "params": words, **({"sessionId": self.session} if self.session else {})}
        os.write(self.write_to, json.dumps(asked).encode() + b"\0")
        while True:
            told = self.message()
            if told.get("id") == self.number:
                if "error" in told:
                    raise AssertionError(f"{method}: {told['error']}")
                return told["result"]
            self.events.append(told)

    def wait_for(self, event):
        """Waits for an event."""
        while not [one for one in self.events if one.get("method") == event]:
            self.events.append(self.message())

    def value(self, expression):
        """What an expression is on the page."""
        return self.ask("Runtime.evaluate", expression=expression, returnByValue=True)["result"].get("value")

    def show(self, path, width, scheme, media="screen"):
        """Shows a page."""
        self.ask("Emulation.setDeviceMetricsOverride", width=width, height=900, deviceScaleFactor=1, mobile=width < 600)
        self.ask("Emulation.setEmulatedMedia", media=media, features=[{"name": "prefers-color-scheme", "value": scheme}])
        self.events = []
        self.ask("Page.navigate", url=path.as_uri())
        self.wait_for("Page.loadEventFired")

    def tree(self):
        """What is said of the page: a role, a name and the role above of each node."""
        nodes = {one["nodeId"]: one for one in self.ask("Accessibility.getFullAXTree")["nodes"]}
        return [(one["role"]["value"], one.get("name", {}).get("value", "")) for one in nodes.values() if not one.get("ignored") and "role" in one]

    def close(self):
        """Ends the browser."""
        self.process.terminate()
        self.process.wait(30)
        os.close(self.write_to)
        os.close(self.read_from)


@unittest.skipUnless(CHROMIUM, "chromium isn't there")
class LookedAt(unittest.TestCase):
    """A page with each kind of night, folder and cell, and with hostile and long names."""

    pictures = None

    @classmethod
    def setUpClass(cls):
        if is_over():
            raise unittest.SkipTest("the time is over")
        room = tempfile.TemporaryDirectory(prefix="syncthing-audit-test-", ignore_cleanup_errors=True)
        cls.addClassCleanup(room.cleanup)
        cls.room = Path(room.name)
        state = cls.room / "state"
        state.mkdir()
        (state / "nights.json").write_text(json.dumps({"nights": NIGHTS, "answers": [ANSWER]}))
        configuration = cls.room / "watch.xml"
        configuration.write_text(f'<watch><device place="x"/><state path="{state}"/></watch>')
        cls.page = cls.room / "audit.html"
        run([built(cls.room) / PROGRAM, "report", "--html", cls.page, "--watch", configuration], env={"HOME": str(cls.room), "PATH": os.environ["PATH"], "TZ": "UTC"}, check=True)
        cls.browser = Browser(cls.room / "browser")
        cls.addClassCleanup(cls.browser.close)

    def picture(self, name):
        """Keeps a picture of the page, where they are asked for."""
        if self.pictures:
            height = self.browser.value("document.documentElement.scrollHeight")
            width = self.browser.value("innerWidth")
            shot = self.browser.ask("Page.captureScreenshot", captureBeyondViewport=True, clip={"x": 0, "y": 0, "width": width, "height": height, "scale": 1})
            (Path(self.pictures) / f"{name}.png").write_bytes(base64.b64decode(shot["data"]))

    def test_it_fits_each_width(self):
        """Nothing is to be scrolled to the side, and no text is cut off, whatever a name is."""
        for width in WIDTHS:
            for scheme in ("light", "dark"):
                self.browser.show(self.page, width, scheme)
                self.assertLessEqual(self.browser.value("document.documentElement.scrollWidth"), width)
                beyond = self.browser.value("[...document.querySelectorAll('main *')].filter(e => e.className !== 'hidden' && e.getBoundingClientRect().right > innerWidth + 1).length")
                self.assertEqual(beyond, 0)
                self.picture(f"{width}-{scheme}")

    def test_each_width_says_when_a_device_was_read(self):
        """Beside its name or, where there is no row of names, in its cell."""
        for width, is_narrow in zip(WIDTHS, (True, False)):
            self.browser.show(self.page, width, "light")
            of_cells = self.browser.value("[...document.querySelectorAll('td')].map(e => getComputedStyle(e, '::after').content).join()")
            self.assertEqual((of_cells.count("read 2026-11-05 03:31 UTC, "), "read 2026" in of_cells), (1, True) if is_narrow else (0, False), of_cells)

    def test_both_schemes(self):
        backs = []
        for scheme in ("light", "dark"):
            self.browser.show(self.page, 1280, scheme)
            backs.append(self.browser.value("getComputedStyle(document.body).backgroundColor"))
        self.assertEqual(backs, ["rgb(255, 255, 255)", "rgb(15, 19, 24)"])

    def test_it_asks_nobody_and_runs_nothing(self):
        """The browser is told so by the page itself, and has nothing to complain of."""
        self.browser.show(self.page, 1280, "light")
        self.assertEqual(self.browser.value("document.title"), "Audit of Syncthing devices")
        self.assertEqual(self.browser.value("document.scripts.length"), 0)
        asked = [one["params"]["request"]["url"] for one in self.browser.events if one.get("method") == "Network.requestWillBeSent"]
        self.assertEqual(asked, [self.page.as_uri()])
        self.assertEqual([one for one in self.browser.events if one.get("method") == "Log.entryAdded"], [])

    def test_it_is_read_aloud(self):
        """At both widths the grid is a table with its headers, and each day and sign has words."""
        for width in WIDTHS:
            self.browser.show(self.page, width, "light")
            told = self.browser.tree()
            roles = [role for role, _ in told]
            self.assertEqual((roles.count("table"), roles.count("columnheader"), roles.count("rowheader"), roles.count("cell")), (1, 4, 1, 3), width)
            names = [name for _, name in told]
            for words in ("1 November 2026: in step", "2 November 2026: in step as far as audited", "3 November 2026: NOT in step, 2 wrong", "4 November 2026: no answer"):
                self.assertIn(words, names)
            for sign in "✓✗○!·–":
                self.assertNotIn(sign, [name.strip() for name in names])
            headings = [name for role, name in told if role == "heading"]
            self.assertEqual([one for one in headings if one in ("Audit of Syncthing devices", "Devices and folders", "What was found", "Nights")],
                             ["Audit of Syncthing devices", "Devices and folders", "What was found", "Nights"])
            self.assertTrue([name for name in names if r"phone <script>document.title='x'</script> \xe2\x80\xaegnp.exe" in name])
            self.assertFalse([name for name in names if "\u202e" in name])

    def test_it_prints(self):
        """On white, whatever the scheme is, and each cell with what it says."""
        self.browser.show(self.page, 1280, "dark", media="print")
        self.assertEqual(self.browser.value("getComputedStyle(document.body).backgroundColor"), "rgb(255, 255, 255)")
        self.assertEqual(self.browser.value("getComputedStyle(document.querySelector('.bad')).color"), "rgb(0, 0, 0)")
        printed = base64.b64decode(self.browser.ask("Page.printToPDF", printBackground=False)["data"])
        self.assertEqual(printed[:5], b"%PDF-")
        if self.pictures:
            (Path(self.pictures) / "printed.pdf").write_bytes(printed)


if __name__ == "__main__":
    if len(sys.argv) > 1 and Path(sys.argv[1]).is_dir():
        LookedAt.pictures = sys.argv.pop(1)
    main()
