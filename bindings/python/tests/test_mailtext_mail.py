"""Mails as text: headers, parts and plain text. The texts are those that the standards of mail and docs/mail.md say."""

import base64
import unittest

from mailtext import mail_text


def shown(body: str | bytes, kind: str = "text/plain; charset=utf-8", more: str = "", width: int = 40) -> list[str]:
    """The lines of a mail with this body."""
    data = body if isinstance(body, bytes) else body.encode()
    mail = f"Content-Type: {kind}\n{more}\n".encode() + data
    return mail_text(mail, width).split("\n")[:-1]


def headers(*lines: bytes | str) -> list[str]:
    """The lines of a mail with these headers and nothing else."""
    data = b"".join((line if isinstance(line, bytes) else line.encode()) + b"\n" for line in lines)
    return mail_text(data + b"\n", 60).split("\n")[:-1]


class Headers(unittest.TestCase):
    def test_those_that_readers_show_in_their_order(self) -> None:
        found = headers("Subject: a", "Received: b", "Date: c", "to: d", "FROM: e", "Cc: f", "X-Spam: g")
        self.assertEqual(found, ["From: e", "To: d", "Cc: f", "Date: c", "Subject: a"])

    def test_they_are_decoded(self) -> None:
        for raw, text in (
            ("=?utf-8?q?Zo=C3=AB?= <z@e.org>", "Zoë <z@e.org>"),
            ("=?utf-8?b?Wm/Dqw==?=", "Zoë"),
            ("=?ISO-8859-1?Q?a?= =?ISO-8859-1?Q?b?=", "ab"),
            ("=?utf-8?q?a?=\n =?utf-8?q?b_c?= d", "ab c d"),
            (b"caf\xc3\xa9", "café"),
            (b"caf\xe9", "café"),
            ("a\n  b", "a b"),
            ("=?iso-2022-jp?b?GyRCRnxLXBsoQg==?=", "日本"),
        ):
            line = b"Subject: " + (raw if isinstance(raw, bytes) else raw.encode())
            self.assertEqual(headers(line), [f"Subject: {text}"])

    def test_what_has_no_form_is_shown_as_far_as_it_goes(self) -> None:
        self.assertEqual(headers("Subject: =?nosuch?q?a?= b"), ["Subject: a b"])
        self.assertEqual(headers("Subject: =?utf-8?b?!?= b")[0][-2:], " b")
        self.assertEqual(headers("From: <<>,;:a", "no header", "Subject: b")[-1], "Subject: b")

    def test_control_characters_are_left_out(self) -> None:
        self.assertEqual(
            headers(b"Subject: a\x1b]0;b\x07\x9b1m"), ["Subject: a]0;b\N{SINGLE RIGHT-POINTING ANGLE QUOTATION MARK}1m"]
        )
        self.assertEqual(headers("Subject: =?utf-8?q?a=1B[1m=0Ab?="), ["Subject: a[1m b"])

    def test_long_ones_are_wrapped(self) -> None:
        self.assertEqual(headers("Subject: " + "word " * 12), ["Subject: " + "word " * 9 + "word", "  word word"])


class Parts(unittest.TestCase):
    def parts(self, kind: str, *parts: str) -> list[str]:
        body = "before\n" + "".join(f"--x\n{part}\n" for part in parts) + "--x--\nafter\n"
        return shown(body, f'multipart/{kind}; boundary="x"')

    def test_the_best_alternative(self) -> None:
        plain, html = "Content-Type: text/plain\n\nplain", "Content-Type: text/html\n\n<b>html</b>"
        self.assertEqual(self.parts("alternative", plain, html), ["**html**"])
        self.assertEqual(self.parts("alternative", html, plain), ["plain"])
        self.assertEqual(self.parts("alternative", plain, "Content-Type: text/html\n\n<p> </p>"), ["plain"])
        self.assertEqual(self.parts("alternative", plain, "Content-Type: image/png\n\nx"), ["plain"])
        self.assertEqual(self.parts("alternative", plain, "Content-Type: text/calendar\n\nx"), ["plain"])

    def test_mixed_parts_in_order(self) -> None:
        one, two = "Content-Type: text/plain\n\none", "\ntwo"
        file = "Content-Type: application/pdf; name=a.pdf\nContent-Disposition: attachment\n\n12345"
        self.assertEqual(
            self.parts("mixed", one, file, two),
            ["one", "", "two", "", "[attached: a.pdf, application/pdf, 5", "bytes]"],
        )

    def test_names_of_attachments(self) -> None:
        for told, name in (
            ('filename="a b.txt"', "a b.txt"),
            ("filename*=utf-8''%C3%A9.txt", "é.txt"),
            ("filename*0=a;filename*1=b.c", "ab.c"),
            ('filename="=?utf-8?q?=C3=A9?="', "é"),
            ('filename="a\x1b[1m.txt"', "a[1m.txt"),
        ):
            part = f"Content-Type: x/y\nContent-Disposition: attachment; {told}\n\n1"
            self.assertEqual(self.parts("mixed", part), [f"[attached: {name}, x/y, 1 bytes]"])

    def test_images_that_html_shows_are_not_attached(self) -> None:
        html, image = "Content-Type: text/html\n\n<p>a", "Content-Type: image/png\nContent-ID: <b>\n\nx"
        self.assertEqual(self.parts("related", html, image), ["a"])
        self.assertEqual(self.parts("mixed", html, image), ["a", "", "[attached: image/png, 1 bytes]"])

    def test_forwarded_mails(self) -> None:
        found = self.parts("mixed", "\nsee", "Content-Type: message/rfc822\n\nFrom: a\nSubject: b\n\nc")
        self.assertEqual([found[0], *found[3:]], ["see", "", "From: a", "Subject: b", "", "c"])
        self.assertEqual(found[2], "─── Forwarded mail " + "─" * 21)
        self.assertEqual(self.parts("digest", "\nSubject: b\n\nc")[2:], ["Subject: b", "", "c"])

    def test_parts_inside_of_parts(self) -> None:
        inner = 'Content-Type: multipart/alternative; boundary="xy"\n\n--xy\n\na\n--xy\n\nb\n--xy--'
        self.assertEqual(self.parts("mixed", inner, "\nc"), ["b", "", "c"])

    def test_what_is_missing(self) -> None:
        self.assertEqual(shown("--x\n\na\n", 'multipart/mixed; boundary="x"'), ["a"])
        self.assertEqual(shown("a\nb", "multipart/mixed"), ["a", "b"])
        self.assertEqual(shown("a", "nonsense"), ["a"])
        self.assertEqual(mail_text(b"Subject: a"), "Subject: a\n")
        self.assertEqual(mail_text(b""), "")

    def test_ends_of_lines_as_they_are_sent(self) -> None:
        mail = b'Content-Type: multipart/mixed; boundary="x"\r\n\r\n--x\r\n\r\na\r\n--x\r\n\r\nb\r\n--x--\r\n'
        self.assertEqual(mail_text(mail), "a\n\nb\n")

    def test_a_boundary_is_a_line(self) -> None:
        self.assertEqual(self.parts("mixed", "\na --x b\n--xyz\nc"), ["a --x b", "--xyz", "c"])

    def test_deep_parts_are_told(self) -> None:
        mail = b"end"
        for number in range(60):
            mail = b'Content-Type: multipart/mixed; boundary="%d"\n\n--%d\n%s\n--%d--' % (number, number, mail, number)
        self.assertTrue(mail_text(mail))


class Encodings(unittest.TestCase):
    def test_quoted_printable_and_base64(self) -> None:
        encoding = "Content-Transfer-Encoding: {}\n"
        self.assertEqual(shown("caf=C3=A9 =\na=3Db", more=encoding.format("Quoted-Printable")), ["café a=b"])
        data = base64.b64encode("café".encode()).decode()
        for text in (data, f"{data[:3]}\n {data[3:]}", data.rstrip("="), f"{data}\n--\nlist"):
            self.assertEqual(shown(text, more=encoding.format("base64"))[0][:4], "café")

    def test_charsets(self) -> None:
        for charset in ("utf-8", "iso-8859-15", "windows-1252", "UTF-16LE", "utf-7", '"latin1"'):
            body = "café".encode(charset.strip('"'))
            self.assertEqual(shown(body, f"text/plain; charset={charset}"), ["café"], charset)
        for charset in ("", "; charset=nosuch", "; charset=us-ascii", "; charset=rot13", "; charset=idna"):
            self.assertEqual(shown(b"caf\xe9", f"text/plain{charset}"), ["café"], charset)
        self.assertEqual(shown(b"\x93a\x94", "text/plain; charset=iso-8859-1"), ["“a”"])
        self.assertEqual(shown(b"<meta charset=utf-8>caf\xe9", "text/html; charset=iso-8859-1"), ["café"])
        self.assertEqual(shown(b"<meta charset=iso-8859-5>\xb1", "text/html"), ["Б"])


class Plain(unittest.TestCase):
    FLOWED = "text/plain; charset=utf-8; format=flowed"

    def test_fixed_text_keeps_its_lines(self) -> None:
        text = "a  b \n\n    c\n\td\n"
        self.assertEqual(shown(text), ["a  b", "", "    c", "        d"])
        self.assertEqual(shown("word " * 5, width=12), ["word word", "word word", "word"])

    def test_quotes_by_their_depth(self) -> None:
        self.assertEqual(
            shown("a\n> b\n>> c\n> > d\n>e\nf"), ["a", "", "> b", ">", "> > c", "> > d", ">", "> e", "", "f"]
        )
        self.assertEqual(shown("> " + "word " * 3, width=8), ["> word", "> word", "> word"])
        self.assertEqual(shown("a > b"), ["a > b"])

    def test_flowed_lines_join(self) -> None:
        self.assertEqual(shown("a \nb\nc", self.FLOWED), ["a b", "c"])
        self.assertEqual(shown("a \n\nb", self.FLOWED), ["a", "", "b"])
        self.assertEqual(shown("word \n" * 4, self.FLOWED, width=12), ["word word", "word word"])

    def test_stuffing_and_depth(self) -> None:
        self.assertEqual(shown(" >a\n  b", self.FLOWED), [">a", " b"])
        self.assertEqual(shown("> a \n> b\n>> c \n>>  d\n>e", self.FLOWED), ["> a b", ">", "> > c  d", ">", "> e"])
        self.assertEqual(shown("> a \n>> b", self.FLOWED), ["> a", ">", "> > b"])

    def test_a_signature_ends_a_paragraph(self) -> None:
        self.assertEqual(shown("a \n-- \nb\nc", self.FLOWED), ["a", "--", "b", "c"])

    def test_delsp(self) -> None:
        self.assertEqual(shown("日本 \n語", f"{self.FLOWED}; delsp=yes"), ["日本語"])
        self.assertEqual(shown("a  \nb", f"{self.FLOWED}; delsp=Yes"), ["a b"])

    def test_deep_quotes_leave_room(self) -> None:
        found = shown(">" * 500 + "word", width=30)
        self.assertTrue(found[-1].endswith("word") and len(found[-1]) <= 30)
