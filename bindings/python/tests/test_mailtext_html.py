"""HTML as text. The texts are those that html2text's rules and docs/mail.md say."""

import unittest

from mailtext import html_text


def lines(html: str, width: int = 40, **how: str) -> list[str]:
    return html_text(html, width, **how).split("\n")[:-1]


class Tables(unittest.TestCase):
    BARE = "<td>tea</td><td>milk</td>"

    def has_lines(self, html: str) -> bool:
        return "─" in html_text(html, 40)

    def table(self, attributes: str, rows: str = f"<tr>{BARE}</tr>") -> str:
        return f"<table {attributes}>{rows}</table>"

    def test_senders_say_that_a_table_has_data(self) -> None:
        for said in ("border=1", "border", "rules=all width=9", 'summary="a list" width=9'):
            self.assertTrue(self.has_lines(self.table(said)), said)
        for rows in (
            "<caption>drinks</caption><tr>" + self.BARE,
            "<thead><tr>" + self.BARE + "</thead>",
            "<tr><th>drink</th><td>tea</td></tr>",
        ):
            self.assertTrue(self.has_lines(self.table("width=9", rows)), rows)

    def test_two_numbers_in_a_column_are_data(self) -> None:
        for first, second in (("3.20", "0.80"), ("€ 3", "€ 4"), ("12", "7 %"), ("9:00", "10:30"), ("1,024 KB", "3 KB")):
            rows = f"<tr><td>a</td><td>{first}</td></tr><tr><td>b</td><td><b>{second}</b></td></tr>"
            self.assertTrue(self.has_lines(self.table("width=9", rows)), first)
        rows = "<tr><td>a</td><td>3 buns</td></tr><tr><td>b</td><td>a loaf</td></tr>"
        self.assertFalse(self.has_lines(self.table("width=9", rows)))
        self.assertFalse(self.has_lines(self.table("width=9", "<tr><td>1</td><td>2</td></tr>")))

    def test_cells_side_by_side_with_borders_are_data(self) -> None:
        cell = "<td style='border: 1px solid #ccc'>tea</td>"
        self.assertTrue(self.has_lines(self.table("width=9", f"<tr>{cell}{cell}</tr>")))
        self.assertFalse(self.has_lines(self.table("width=9", f"<tr>{cell}</tr>")))
        self.assertFalse(self.has_lines(self.table("width=9", f"<tr>{cell.replace('1px', '0')}{cell}</tr>")))

    def test_a_table_is_layout_where_a_browser_draws_nothing(self) -> None:
        for said in (
            "border=0",
            "cellpadding=0 cellspacing=0",
            "width='100%'",
            "role=presentation border=1",
            "class=row",
        ):
            self.assertEqual(lines(self.table(said)), ["tea", "milk"], said)
        heads = "<tr><th class=columns><p>tea</p></th><th class=expander></th></tr>"
        self.assertEqual(lines(self.table("class=row", heads)), ["tea"])

    def test_a_table_of_which_nothing_is_said_has_lines(self) -> None:
        self.assertEqual(lines(self.table("")), ["───┬────", "tea│milk", "───┴────"])

    def test_data_inside_of_layout(self) -> None:
        inner = "<table border=1><tr><td>1</td><td>2</td></tr></table>"
        outer = f"<table border=0 width=600><tr><td>one</td></tr><tr><td>{inner}</td></tr><tr><td>two</td></tr></table>"
        self.assertEqual(lines(outer), ["one", "", "─┬─", "1│2", "─┴─", "", "two"])

    def test_long_words_are_broken_as_addresses_are(self) -> None:
        address = "https://example.org/toll/receipts/2026/11"
        html = f"<table border=1><tr><td>{address}<td>tea</table>"
        self.assertEqual(lines(html, 30)[1:-1], ["https://example.org/toll/ │tea", "receipts/2026/11          │"])
        letters = html.replace(address, "x" * 40)
        self.assertEqual(lines(letters, 30)[1:-1], ["x" * 26 + "│tea", "x" * 14 + " " * 12 + "│"])
        self.assertEqual(lines(html, 45)[1:-1], [f"{address}│tea"])
        self.assertEqual(lines(f"<p>a {address}", 30), ["a", address[:30], address[30:]])

    def test_cells_that_do_not_fit_are_below_one_another(self) -> None:
        html = "<table border=1><tr><td>bread<td>cake<tr><td>tea<td></table>"
        self.assertEqual(lines(html, 9), ["─────────", "bread", "/////////", "cake", "─────────", "tea", "─────────"])
        self.assertEqual(lines(html, 10), ["─────┬────", "bread│cake", "─────┼────", "tea  │", "─────┴────"])

    def test_lists_and_quotes_in_cells(self) -> None:
        html = "<table border=1><tr><td><ol start=9><li>tea<li>milk</ol><td><blockquote>bread</blockquote></table>"
        self.assertEqual(lines(html), ["────────┬───────", "9.  tea │> bread", "10. milk│", "────────┴───────"])
        html = "<table border=1><tr><td><dl><dt>tea<dd>green, of spring</dl><td>x</table>"
        shown = ["──────────┬─", "*tea*     │x", "  green,  │", "  of      │", "  spring  │", "──────────┴─"]
        self.assertEqual(lines(html, 12), shown)

    def test_links_in_cells(self) -> None:
        html = "<table border=1><tr><td>a<td><a href='https://e.org'>tea and milk</a></table>"
        self.assertEqual(lines(html)[1], "a│[tea and milk][1]")
        link = '<a href="https://e.org">tea and milk</a>'
        self.assertIn(f"\na│{link}\n", html_text(html, 40, format="html", links="none"))


class Links(unittest.TestCase):
    def test_equal_targets_share_a_footnote(self) -> None:
        html = "<a href=x>one</a> <a href=y>two</a> <a href=x>three</a>"
        self.assertEqual(lines(html), ["[one][1] [two][2] [three][1]", "", "[1]: x", "[2]: y"])

    def test_ways_to_tell_targets(self) -> None:
        html = "<a href='https://example.org/abcdef'>one</a>."
        self.assertEqual(lines(html, 12, links="cut"), ["[one][1].", "", "[1]: https:/", "/example.org", "/abcdef"])
        self.assertEqual(lines(html, 12, links="whole"), ["[one][1].", "", "[1]: https://example.org/abcdef"])
        self.assertEqual(lines(html, 40, links="inline"), ["one <https://example.org/abcdef>."])
        self.assertEqual(lines(html, 12, links="none"), ["one."])

    def test_an_image_without_text_is_told_by_its_name_or_the_address(self) -> None:
        shown = html_text('<a href="https://example.org/a?b=c"><img src="https://example.org/logo%20new.png?x"></a>')
        self.assertEqual(shown, "[logo new.png][1]\n\n[1]: https://example.org/a?b=c\n")
        shown = html_text('<a href="https://example.org/a?b=c"><img src="https://example.org/i/9f3"></a>')
        self.assertEqual(shown, "[https://example.org/a][1]\n\n[1]: https://example.org/a?b=c\n")
        self.assertEqual(
            html_text('<a href="x"><img src="logo.png" alt="The Mill"></a>'), "[[The Mill]][1]\n\n[1]: x\n"
        )
        self.assertEqual(html_text('<p>a<a href="x"><img src="pixel.gif" width="1" height="1"></a>'), "a\n")
        self.assertEqual(html_text('<p>a<img src="logo.png">'), "a\n")

    def test_base(self) -> None:
        html = '<head><base href="https://example.org/a/"></head><a href="b?c">d</a> <a href="mailto:e@f">g</a>'
        self.assertEqual(lines(html)[2:], ["[1]: https://example.org/a/b?c", "[2]: mailto:e@f"])

    def test_marks_are_about_words_and_not_about_blocks(self) -> None:
        self.assertEqual(lines("a<a href=x> b </a>c"), ["a [b][1] c", "", "[1]: x"])
        self.assertEqual(lines("<a href=x><div>a</div><div>b</div></a>c"), ["[a", "b][1]", "c", "", "[1]: x"])

    def test_addresses_are_shown_as_browsers_show_them(self) -> None:
        self.assertEqual(lines("<a href=' a b\n\xa0&#10;'>c</a>")[-1], "[1]: a%20b%C2%A0")


class Elements(unittest.TestCase):
    def test_marks_in_text(self) -> None:
        html = "a <b>b</b> <i>c</i> <strong> d </strong><em>e</em> <code>f</code>"
        self.assertEqual(lines(html), ["a **b** *c* **d** *e* `f`"])
        self.assertEqual(lines("<b><div>a</div></b>"), ["a"])
        self.assertEqual(lines("a<b> </b>b"), ["a b"])

    def test_ansi(self) -> None:
        shown = html_text(
            "<b>b</b> <i>c</i> <a href='https://e.org'>d</a> <a href='javascript:1'>e</a>", format="ansi", links="none"
        )
        link = "\x1b[4m\x1b]8;;https://e.org\x1b\\d\x1b]8;;\x1b\\\x1b[0m"
        nowhere = "\x1b[4m\x1b]8;;\x1b\\e\x1b]8;;\x1b\\\x1b[0m"
        self.assertEqual(shown, f"\x1b[1mb\x1b[0m \x1b[3mc\x1b[0m {link} {nowhere}\n")

    def test_html(self) -> None:
        shown = html_text("<b>a&lt;</b> <a href='https://e.org/?a&amp;b'>d</a>", format="html", links="none")
        self.assertIn('<strong>a&lt;</strong> <a href="https://e.org/?a&amp;b">d</a>\n</pre>', shown)

    def test_lists(self) -> None:
        self.assertEqual(lines("<ol start=9><li>a<li>b</ol>"), ["9.  a", "10. b"])
        self.assertEqual(lines("<ol type=a><li>a<li value=27>b<li>c</ol>"), ["a.  a", "aa. b", "ab. c"])
        self.assertEqual(lines("<ol type=I start=3><li>a<li>b</ol>"), ["III. a", "IV.  b"])
        self.assertEqual(lines("<ol reversed><li>a<li>b</ol>"), ["2. a", "1. b"])
        self.assertEqual(lines("<ol><li>a<li value=7>b<li>c</ol>"), ["1. a", "7. b", "8. c"])
        self.assertEqual(lines("<dl><dt>a<dd>b<dt>c<dd>d</dl>"), ["*a*", "  b", "*c*", "  d"])

    def test_others(self) -> None:
        self.assertEqual(lines("<details><summary>a</summary>b</details>"), ["a", "b"])
        self.assertEqual(lines("a<hr>b", 3), ["a", "", "───", "", "b"])
        self.assertEqual(lines("H<sub>2</sub>O m<sup>2</sup> a<sub>i</sub> b<sup>th</sup>"), ["H₂O m² a_{i} b^{th}"])
        self.assertEqual(lines("a<br>b<wbr>c"), ["a", "bc"])

    def test_no_line_ends_in_a_space(self) -> None:
        shown = html_text(
            "<blockquote>a<p>b</blockquote><table border=1><tr><td>abc</td><td>d<br>efg</td></table><pre>a  \n b </pre>"
        )
        self.assertEqual([line for line in shown.split("\n") if line.endswith(" ")], [])


class Hidden(unittest.TestCase):
    def test_what_browsers_do_not_show(self) -> None:
        for style in (
            "display:none",
            "DISPLAY : NONE !important; color:red",
            "visibility:hidden",
            "opacity:0",
            "max-height:0px;overflow:hidden",
            "font-size:0",
            "font-size:0px;line-height:0",
            "width:0;height:0;overflow:hidden",
        ):
            self.assertEqual(lines(f"<p>a<div style='{style}'>hidden <b>too</b><p>x</div><p>b"), ["a", "", "b"], style)
        self.assertEqual(lines("a<span hidden>hidden</span>b"), ["ab"])
        self.assertEqual(lines("<title>a</title><script>b</script><template>c</template>d"), ["d"])

    def test_what_they_show(self) -> None:
        html = "<div style='font-size:0'><span style='font-size:14px'>a</span> b</div>"
        self.assertEqual(lines(html), ["a"])
        for style in (
            "display:block",
            "max-height:0.5em;overflow:hidden",
            "height:0",
            "opacity:0.5",
            "font-size:0.9em",
        ):
            self.assertEqual(lines(f"<div style='{style}'>a</div>"), ["a"], style)

    def test_style_sheets(self) -> None:
        sheet = "<style>/* .c{} */ td.a, #b { color:red; display:none } @media print { .c { display:none } }</style>"
        html = f"{sheet}<table border=0><tr><td class='a x'>one<td class=c>two<td id=b>three<td><p class=a>four</table>"
        self.assertEqual(lines(html), ["two", "", "four"])

    def test_links_that_are_hidden_have_no_number(self) -> None:
        self.assertEqual(lines("<div style='display:none'><a href=x>a</a></div><a href=y>b</a>")[0], "[b][1]")


class Markup(unittest.TestCase):
    def test_what_browsers_mend(self) -> None:
        self.assertEqual(lines("a < b <c> d &lt;e> &amp &#65; &nosuch;"), ["a < b d <e> & A &nosuch;"])
        self.assertEqual(lines("a<!-- b > c -->d<!e>f<?g?>h</1>i"), ["adfhi"])
        self.assertEqual(lines("<p title='a > b'>c<p title=\"it's > d\">e"), ["c", "", "e"])
        self.assertEqual(lines("<style>a { b: c }</STYLE >d<SCRIPT>if (a < b) '</p>'</SCRIPT>e"), ["de"])
        self.assertEqual(lines("<body>a<p>b</body></html>"), ["a", "", "b"])

    def test_what_has_no_end_is_text(self) -> None:
        self.assertEqual(lines("a <b"), ["a <b"])
        self.assertEqual(lines("a<!-- b"), ["a<!-- b"])

    def test_charsets(self) -> None:
        for html, text in (
            (b"caf\xe9", "café"),
            (b"caf\xc3\xa9", "café"),
            (b"\xef\xbb\xbfcaf\xc3\xa9", "café"),
            (b"<meta charset=iso-8859-5>\xb1", "Б"),
            (b"<meta http-equiv=Content-Type content='text/html; charset=windows-1251'>\xc1", "Б"),
            (b"<meta charset=nosuch>caf\xe9", "café"),
            ("<meta charset=gb2312>好".encode("gb18030"), "好"),
            ("好".encode("utf-16"), "好"),
        ):
            self.assertEqual(html_text(html), f"{text}\n")

    def test_choices(self) -> None:
        for wrong in ({"width": 0}, {"links": "all"}, {"format": "pdf"}):
            with self.assertRaises(ValueError):
                html_text("a", **wrong)  # type: ignore[arg-type]
