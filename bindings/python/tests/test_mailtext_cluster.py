"""An archive on a cluster: a scheduler of Dask and its workers, each a process of this machine."""

import os
import re
import subprocess
import sys
import tempfile
import time
import unittest
from importlib.util import find_spec
from pathlib import Path

PYTHON = Path(__file__).resolve().parent.parent
SECONDS = 60
MAILS = 1200


@unittest.skipUnless(find_spec("distributed"), "Dask isn't installed: python3-distributed of Debian has it")
class Cluster(unittest.TestCase):
    def setUp(self) -> None:
        folder = tempfile.TemporaryDirectory()
        self.addCleanup(folder.cleanup)
        self.folder = Path(folder.name)
        body = b"<p>bread and " + b"<b>cake</b> " * 400
        parts = (
            b"From a@b\nSubject: %d\nContent-Type: text/html\n\n%s%d</p>\n\n" % (it, body, it) for it in range(MAILS)
        )
        (self.folder / "mbox").write_bytes(b"".join(parts))
        self.address = self.scheduler()

    def start(self, *words: str) -> "subprocess.Popen[str]":
        """A process that is ended after the test."""
        environment = {**os.environ, "PYTHONPATH": str(PYTHON)}
        where = {"cwd": self.folder, "env": environment}
        process = subprocess.Popen(
            [sys.executable, *words], stderr=subprocess.PIPE, stdout=subprocess.DEVNULL, text=True, **where
        )
        self.addCleanup(process.wait)
        self.addCleanup(process.kill)
        assert process.stderr
        self.addCleanup(process.stderr.close)
        return process

    def scheduler(self) -> str:
        """Starts a scheduler, and answers its address."""
        words = ["--host", "127.0.0.1", "--port", "0", "--no-dashboard"]
        process = self.start("-m", "distributed.cli.dask_scheduler", *words)
        assert process.stderr
        for line in process.stderr:
            if found := re.search(r"tcp://127\.0\.0\.1:\d+", line):
                return found[0]
        self.fail("the scheduler doesn't start")

    def worker(self) -> "subprocess.Popen[str]":
        """Starts a worker, and waits until it has met the scheduler."""
        words = [self.address, "--nthreads", "1", "--no-nanny", "--no-dashboard", "--local-directory", str(self.folder)]
        process = self.start("-m", "distributed.cli.dask_worker", *words)
        assert process.stderr
        self.assertTrue(any("Registered to" in line for line in process.stderr))
        return process

    def archive(self, name: str) -> "subprocess.Popen[str]":
        out = str(self.folder / name)
        return self.start("-m", "mailtext", "--archive", "mbox", out, "--cluster", self.address, "--no-headers")

    def said(self, process: "subprocess.Popen[str]") -> str:
        """What a process says in the end, which has to come."""
        assert process.stderr
        said = process.stderr.read()
        self.assertEqual(process.wait(SECONDS), 0, said)
        return said

    def is_whole(self, name: str) -> None:
        """Checks that each mail has its text."""
        texts = sorted((self.folder / name).iterdir())
        self.assertEqual([it.name for it in texts], [f"{number:08}.txt" for number in range(1, MAILS + 1)])
        for number in (1, MAILS // 2, MAILS):
            self.assertIn(f"{number - 1}\n", (self.folder / name / f"{number:08}.txt").read_text())

    def test_two_workers_and_then_four(self) -> None:
        for name, count in ("two", 2), ("four", 2):
            for _ in range(count):
                self.worker()
            self.assertIn(f"{MAILS} mails in", self.said(self.archive(name)))
            self.is_whole(name)

    def test_a_worker_that_is_killed_loses_no_mail(self) -> None:
        victim, _ = self.worker(), self.worker()
        process = self.archive("out")
        until = time.monotonic() + SECONDS
        while time.monotonic() < until and len(list((self.folder / "out").glob("*.txt"))) < MAILS // 10:
            time.sleep(0.02)
        victim.kill()
        self.assertIn(f"{MAILS} mails in", self.said(process))
        self.is_whole("out")

    def test_no_scheduler(self) -> None:
        words = ["-m", "mailtext", "--archive", "mbox", "out", "--cluster", "tcp://127.0.0.1:9"]
        process = self.start(*words)
        assert process.stderr
        self.assertIn("mailtext: no scheduler answers at tcp://127.0.0.1:9\n", process.stderr.read())
        self.assertEqual(process.wait(SECONDS), 3)
