"""The page with its pictures: as matplotlib draws them, and as a browser shows it (Debian: python3-matplotlib, chromium)."""

import random
import shutil
import socket
import subprocess
import tempfile
import threading
import unittest
from importlib.util import find_spec
from pathlib import Path
from typing import List
from xml.etree import ElementTree

import second_program
from page_reading import Page
from yds import page
from yds._look import SCRIPT

NEEDS = ("matplotlib", "chromium")
CHROMIUM = shutil.which("chromium")
HEAD = "# CPU 0 of a kernel trace; time 0 is 100.500000000 s\n# time unit 10 us, speed unit 10000 kHz, work unit 100 cycles\n"


def document(jobs: int, tasks: int, seed: int = 1) -> str:
    """Tasks with names of 15 characters, of which some jobs are late, and who else ran."""
    pick = random.Random(seed)
    names = [f"renderer-{place:06d}" for place in range(tasks)]
    lines: List[str] = []
    runs: List[str] = []
    now = 0
    for place in range(jobs):
        length, late = pick.randrange(20, 90), pick.choice([0, 0, 0, 40])
        job = f"{names[place % tasks]}.{place // tasks}"
        lines.append(f"job {job} {now} {now + 100} {length * 60}")
        runs.append(f"# other kworker/0:1-57 {now} {now + 20 + late}")
        runs.append(f"run {job} {now + 20 + late} {now + 20 + late + length} 60")
        now += 160
    points = ["point 0 0", "point 41 28", "point 60 41", "point 142 179"]
    closing = [f"# {jobs} jobs written, none left out"]
    return "\n".join([*points, HEAD.rstrip(), *lines, "ticks 1", *runs, *closing]) + "\n"


def answer(words, text):  # type: ignore[no-untyped-def]
    """Verdicts by the second program, and of the rest what takes it no time."""
    if words[0] in ("audit", "round", "report", "curve") and text.count(b"\njob ") < 20:
        return second_program.answer(words, text)
    if words[0] == "audit":
        return second_program.answer(words, text)
    return 3, b"refused 1 1 TooMany\n"


@unittest.skipUnless(find_spec("matplotlib"), "matplotlib isn't installed")
class PicturesTest(unittest.TestCase):
    def page(self, text: str) -> Page:
        self.text = page.html(text, answer=answer)
        return Page(self.text)

    def test_each_picture_has_its_words_and_ids_of_its_own(self) -> None:
        for jobs, tasks in ((10, 2), (300, 12), (4000, 12)):
            with self.subTest(jobs=jobs):
                read = self.page(document(jobs, tasks))
                figures = read.root.all("figure")
                self.assertEqual(len(figures), 6 if jobs == 10 else 5)
                self.assertNotIn("no-pictures", read.ids)
                for figure in figures:
                    svg = figure.all("svg")[0]
                    told = [read.ids[name] for name in svg.attributes["aria-labelledby"].split()]
                    self.assertTrue(all(node.text.strip() for node in told), figure.text[:80])
                self.assertLess(len(self.text), 2_500_000)

    def test_each_picture_is_well_formed(self) -> None:
        self.page(document(10, 2))
        for part in self.text.split("<svg")[1:]:
            svg = "<svg xmlns:xlink='x'" + part.split("</svg>")[0] + "</svg>"
            self.assertTrue(list(ElementTree.fromstring(svg)))

    def test_the_surroundings_of_a_miss(self) -> None:
        read = self.page(document(10, 2))
        article = read.ids["worst"].all("article")[0]
        job = article.all("h3")[0].text.split(",")[0]
        told = article.all("figure")[0].text
        self.assertTrue(f"Who ran when around {job}" in told and "others: kworker/0:1-57 for " in told, job)

    def test_hostile_names_within_pictures(self) -> None:
        name = "<script>x</script>$\\x$&#59;"
        text = f"job {name} 0 9 4\njob b 0 9 4\nticks 1\nrun b 0 9 1\nrun {name} 9 20 1\n# other <img/src=x>-7 1 2\n"
        read = self.page(text)
        self.assertEqual([node.text for node in read.root.all("script")], [SCRIPT])
        self.assertTrue(any(name in node.text for node in read.root.all("svg")))

    def test_without_script_all_is_there(self) -> None:
        read = self.page(document(10, 2))
        for name in ("verdict", "by-task", "energies", "times", "all-misses", "picture-1", "picture-6", "inputs"):
            self.assertIn(name, read.ids)
        self.assertTrue(all("open" in node.attributes for node in read.root.all("details")))

    def test_two_pages_have_the_same_bytes(self) -> None:
        self.assertEqual(page.html(document(30, 3), answer=answer), page.html(document(30, 3), answer=answer))


class Listening:
    """A proxy that answers nothing and counts what is asked of it."""

    def __init__(self) -> None:
        self.asked: List[bytes] = []
        self._socket = socket.socket()
        self._socket.bind(("127.0.0.1", 0))
        self._socket.listen(8)
        self.port = self._socket.getsockname()[1]
        threading.Thread(target=self._listen, daemon=True).start()

    def _listen(self) -> None:
        while True:
            try:
                connection, _ = self._socket.accept()
            except OSError:
                return
            connection.settimeout(20)
            try:
                self.asked.append(connection.recv(400))
            except OSError:
                self.asked.append(b"")
            connection.close()

    def close(self) -> None:
        self._socket.close()


@unittest.skipUnless(CHROMIUM and find_spec("matplotlib"), "chromium or matplotlib isn't installed")
class BrowserTest(unittest.TestCase):
    """A browser says nothing on its console, and asks nothing of a network."""

    def setUp(self) -> None:
        held = tempfile.TemporaryDirectory()
        self.addCleanup(held.cleanup)
        self.folder = Path(held.name)
        self.proxy = Listening()
        self.addCleanup(self.proxy.close)

    def shown(self, text: str, *words: str) -> "subprocess.CompletedProcess[bytes]":
        place = self.folder / "page.html"
        place.write_text(text, encoding="ascii")
        command = [
            str(CHROMIUM), "--headless", "--no-sandbox", "--disable-gpu", f"--user-data-dir={self.folder}/profile",
            "--disable-background-networking", "--disable-component-update", "--disable-sync", "--no-first-run",
            "--disable-default-apps", "--disable-extensions", f"--proxy-server=127.0.0.1:{self.proxy.port}",
            "--enable-logging=stderr", *words, place.as_uri(),
        ]  # fmt: skip
        return subprocess.run(command, stdout=subprocess.PIPE, stderr=subprocess.PIPE, check=False, timeout=240)

    def test_nothing_on_its_console_and_nothing_asked(self) -> None:
        for text in (document(10, 2), document(300, 12)):
            told = page.html(text, answer=answer)
            figures = told.count("<figure ")
            done = self.shown(told, "--dump-dom")
            self.assertEqual(done.returncode, 0)
            self.assertNotIn(b"CONSOLE", done.stderr)
            self.assertEqual([asked for asked in self.proxy.asked if b"google" not in asked], [])
            self.assertEqual(done.stdout.count(b"<button"), figures)

    def test_the_console_is_heard(self) -> None:
        """A near miss: a page with another script, and a picture from elsewhere, is told and stopped."""
        told = page.html(document(10, 2), answer=answer)
        hostile = told.replace("</body>", "<script>alert(1)</script><img src='http://example.com/x.png'></body>")
        done = self.shown(hostile, "--dump-dom")
        self.assertIn(b"CONSOLE", done.stderr)
        self.assertEqual([asked for asked in self.proxy.asked if b"example" in asked], [])

    def test_it_prints(self) -> None:
        place = self.folder / "page.pdf"
        self.shown(page.html(document(40, 12), answer=answer), f"--print-to-pdf={place}")
        self.assertTrue(place.read_bytes().startswith(b"%PDF"))


if __name__ == "__main__":
    unittest.main()
