"""The command: what it takes, what it says, and how it ends."""

import os
import subprocess
import sys
import tempfile
import unittest
from pathlib import Path

import text_block_renderer

PYTHON = Path(__file__).resolve().parent.parent
MAIL = b"From: a\nSubject: b\nX-Odd: c\nContent-Type: text/html; charset=utf-8\n\n<p>caf\xc3\xa9"


def run(*words: str, data: bytes = b"") -> tuple[int, str, str]:
    """How the command ends, and what it writes."""
    environment = {**os.environ, "PYTHONPATH": str(PYTHON)}
    ran = subprocess.run(
        [sys.executable, "-m", "mailtext", *words],
        input=data,
        capture_output=True,
        env=environment,
        check=False,
        timeout=60,
    )
    return ran.returncode, ran.stdout.decode(), ran.stderr.decode()


class Command(unittest.TestCase):
    def setUp(self) -> None:
        folder = tempfile.TemporaryDirectory()
        self.addCleanup(folder.cleanup)
        self.folder = Path(folder.name)

    def file(self, name: str, data: bytes) -> str:
        (self.folder / name).write_bytes(data)
        return str(self.folder / name)

    def test_a_mail_a_file_and_several(self) -> None:
        shown = "From: a\nSubject: b\n\ncafé\n"
        self.assertEqual(run(data=MAIL), (0, shown, ""))
        self.assertEqual(run("-", data=MAIL), (0, shown, ""))
        self.assertEqual(run(self.file("a", MAIL), self.file("b", b"<p>d")), (0, f"{shown}\nd\n", ""))
        self.assertEqual(run(data=b"From me@here Sat Nov 21 09:00:00 2026\n" + MAIL), (0, shown, ""))

    def test_html_by_its_content_and_as_said(self) -> None:
        for html in (b"<p>a: b", b"a: b", b"\n\n  <!doctype html>a: b", b"a: b\n\n<p>Subject: c"):
            self.assertEqual(run(data=html)[1].split("\n")[0], "a: b")
        self.assertEqual(run("--html", data=b"Subject: <b>a</b>\n\nb"), (0, "Subject: **a** b\n", ""))
        self.assertEqual(run("--html", "--charset", "iso-8859-5", data=b"\xb1"), (0, "Б\n", ""))

    def test_headers(self) -> None:
        self.assertTrue(
            run("--headers", data=MAIL)[1].startswith("From: a\nSubject: b\nX-Odd: c\nContent-Type: text/html;")
        )
        self.assertEqual(run("--no-headers", data=MAIL)[1], "café\n")

    def test_what_is_written(self) -> None:
        html = b"<a href=https://example.org/abc>one</a> <b>two</b>"
        self.assertEqual(run("--width", "10", data=html)[1], "[one][1]\n**two**\n\n[1]: https\n://example\n.org/abc\n")
        self.assertEqual(run("--links", "inline", data=html)[1], "one <https://example.org/abc> **two**\n")
        self.assertEqual(run("--links", "none", "--format", "ansi", data=b"<b>a</b>")[1], "\x1b[1ma\x1b[0m\n")
        self.assertIn("<strong>two</strong>", run("--format", "html", data=html)[1])

    def test_what_cannot_be_read(self) -> None:
        locked = self.file("locked", MAIL)
        os.chmod(locked, 0)
        missing = str(self.folder / "missing\x1b[1m")
        self.assertEqual(run(missing), (3, "", f"mailtext: {self.folder}/missing\\x1b[1m isn't there\n"))
        self.assertEqual(
            run(str(self.folder))[0::2], (3, f"mailtext: {self.folder} is a folder; --archive reads one of mails\n")
        )
        if os.geteuid():
            self.assertEqual(run(locked), (3, "", f"mailtext: {locked} may not be read: permission is denied\n"))
        status, shown, _ = run(missing, self.file("a", b"<p>d"))
        self.assertEqual((status, shown), (3, "d\n"))

    def test_no_permission(self) -> None:
        from mailtext.command import why_unread

        self.assertEqual(why_unread(PermissionError(13, "denied")), "may not be read: permission is denied")
        self.assertEqual(why_unread(OSError(5, "input/output error")), "can't be read")

    def test_a_command_line_that_is_wrong(self) -> None:
        for words in (["--width", "0"], ["--width", "x"], ["--format", "pdf"], ["--links", "all"], ["--nothing"]):
            status, shown, said = run(*words)
            self.assertEqual((status, shown), (2, ""))
            self.assertIn("mailtext: error: ", said)
        self.assertEqual(run("--version"), (0, f"mailtext {text_block_renderer.__version__}\n", ""))

    def test_a_stream_that_is_full(self) -> None:
        with open("/dev/full", "wb") as full:
            environment = {**os.environ, "PYTHONPATH": str(PYTHON)}
            words = [sys.executable, "-m", "mailtext"]
            ran = subprocess.run(words, input=MAIL, stdout=full, stderr=subprocess.PIPE, env=environment, check=False)
        self.assertEqual((ran.returncode, ran.stderr), (3, b"mailtext: standard output can't be written\n"))


def maildir(folder: Path, mails: dict[str, bytes]) -> str:
    """A maildir with these mails."""
    for name in ("cur", "new", "tmp"):
        (folder / "mails" / name).mkdir(parents=True)
    for name, data in mails.items():
        (folder / "mails" / name).write_bytes(data)
    return str(folder / "mails")


class Archive(unittest.TestCase):
    def setUp(self) -> None:
        folder = tempfile.TemporaryDirectory()
        self.addCleanup(folder.cleanup)
        self.folder = Path(folder.name)
        self.out = self.folder / "out"

    def texts(self) -> dict[str, str]:
        return {it.name: it.read_text() for it in sorted(self.out.iterdir()) if it.is_file()}

    def archive(self, mailbox: str, *words: str) -> tuple[int, str]:
        status, shown, said = run("--archive", mailbox, str(self.out), "--no-headers", *words)
        self.assertEqual(shown, "")
        return status, said

    def test_a_maildir(self) -> None:
        mailbox = maildir(
            self.folder, {"cur/1.a:2,S": b"Subject: a\n\none", "new/2.a": b"Subject: b\n\ntwo", "tmp/3": b"x"}
        )
        status, said = self.archive(mailbox, "--workers", "2")
        self.assertEqual(status, 0)
        self.assertEqual(self.texts(), {"1.a.txt": "one\n", "2.a.txt": "two\n"})
        self.assertRegex(said, r"^mailtext: 2 mails in [\d.]+ s, \d+ a second\n$")

    def test_an_mbox(self) -> None:
        mbox = self.folder / "mbox"
        mbox.write_bytes(
            b"From a@b Sat Nov 21 09:00:00 2026\nSubject: a\n\none\n>From here\n\n"
            b"From c d\nSubject: b\n\ntwo\nFrom there\nFrom e@f Sat Nov 21 09:00:00 2026\nSubject: c\n\nthree\n"
        )
        self.assertEqual(self.archive(str(mbox))[0], 0)
        texts = {"00000001.txt": "one\nFrom here\n", "00000002.txt": "two\nFrom there\n", "00000003.txt": "three\n"}
        self.assertEqual(self.texts(), texts)

    def test_what_is_there_stays(self) -> None:
        mailbox = maildir(self.folder, {f"new/{number}": b"Subject: a\n\n%d" % number for number in range(9)})
        self.out.mkdir()
        (self.out / "3.txt").write_text("before")
        (self.out / "4.txt.part").write_text("half")
        status, said = self.archive(mailbox)
        self.assertEqual((status, self.texts()["3.txt"], self.texts()["4.txt"]), (0, "before", "4\n"))
        self.assertIn("8 mails in", said)
        self.assertIn("; 1 were there", said)

    def test_a_worker_that_ends_takes_no_mail_with_it(self) -> None:
        from mailtext import reading, workers
        from mailtext.options import Options

        batches = [[(f"{number}", b"Subject: a\n\n%d" % number)] * 3 for number in range(20)]
        batches[7].append(("bad", b"kill"))
        true = workers.read_batch
        self.addCleanup(setattr, workers, "read_batch", true)
        workers.read_batch = deadly
        read = [it for found in workers.by_processes(iter(batches), Options(headers=False), 2) for it in found]
        self.assertEqual(sorted(it.name for it in read), sorted(name for batch in batches for name, _ in batch))
        self.assertEqual([it for it in read if it.text is None], [reading.Read("bad", None, workers.ENDED)])

    def test_a_mail_that_is_not_read_is_copied_aside(self) -> None:
        from mailtext.archive import Archive as Texts
        from mailtext.archive import Progress
        from mailtext.mailboxes import Mail
        from mailtext.options import Options
        from mailtext.reading import Read

        mail = Mail("1", str(self.folder / "1"))
        Path(mail.path).write_bytes(b"Subject: a")
        texts, progress = Texts(str(self.out), Options()), Progress(1, 0)
        texts.take(Read("1", None, "it is too odd"), mail, progress)
        self.assertEqual((self.out / "unread" / "1.eml").read_bytes(), b"Subject: a")
        self.assertEqual((progress.end(), self.texts()), (1, {}))
        texts.take(Read("1", "a\n"), mail, progress)
        self.assertEqual(self.texts(), {"1.txt": "a\n"})
        self.assertFalse((self.out / "unread" / "1.eml").exists())

    def test_what_is_no_mailbox(self) -> None:
        other = self.folder / "other"
        other.write_bytes(b"Subject: a")
        self.assertEqual(self.archive(str(other))[0], 3)
        self.assertEqual(self.archive(str(self.folder))[0], 3)
        self.assertEqual(
            self.archive(str(self.folder / "missing"))[1], f"mailtext: {self.folder}/missing isn't there\n"
        )


def deadly(batch: list[tuple[str, bytes]], options: object) -> object:
    """Reads a batch, and ends the process at one mail."""
    from mailtext import reading

    if any(data == b"kill" for _, data in batch):
        os._exit(9)
    return reading.read_batch(batch, options)  # type: ignore[arg-type]
