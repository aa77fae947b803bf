"""Tests of the package: what no clause can say of real calls. They run by `python3 -m unittest` and by pytest."""

import concurrent.futures
import io
import json
import pickle
import re
import unittest
from pathlib import Path

import htmd
from htmd import _convert, _library

HEADER = Path(__file__).parents[2] / "c" / "htmd.h"

PAGE = "<!DOCTYPE html><html><head><title>t</title></head><body><h1>Hi</h1></body></html>"

#: For each kind a text, and the byte where it is refused.
REFUSALS = {
    "Nul": ("a\0b", 1),
    "MalformedTag": ("<p>a <b c</p>", 5),
    "MalformedComment": ("a<!-- b", 1),
    "MalformedDeclaration": ("<p>a</p><!DOCTYPE html>", 8),
    "UnknownReference": ("<p>a &nosuch; b</p>", 5),
    "BadNumber": ("<p>a &#150; b</p>", 5),
    "DuplicateAttribute": ("<p id=a id=b>c</p>", 0),
    "SelfClosing": ("<div/>a", 0),
    "TagOutside": ("<html><body>a</body></html>", 0),
    "NotAllowedHere": ("<ul><li>a<li>b</ul>", 9),
    "StrayEndTag": ("<b>a<i>b</b></i>", 8),
    "StrayText": ("<table>a<tr><td>b</td></tr></table>", 7),
    "Unclosed": ("<p>a", 4),
    "ScriptEscape": ("<script><!-- <script></script>", 8),
    "TooDeep": ("<div>" * 2000, 5110),
}

#: For each value of each option a text and its Markdown, in the mode "pure".
OPTIONS = [
    ("heading_style", "atx", "<h1>A</h1>", "# A"),
    ("heading_style", "setext", "<h1>A</h1>", "A\n="),
    ("hr_style", "asterisks", "<hr>", "* * *"),
    ("hr_style", "dashes", "<hr>", "- - -"),
    ("hr_style", "underscores", "<hr>", "_ _ _"),
    ("br_style", "two-spaces", "a<br>b", "a  \nb"),
    ("br_style", "backslash", "a<br>b", "a\\\nb"),
    ("link_style", "inlined", "<a href=http://a.b/>http://a.b/</a>", "[http://a.b/](http://a.b/)"),
    ("link_style", "inlined-prefer-autolinks", "<a href=http://a.b/>http://a.b/</a>", "<http://a.b/>"),
    ("link_style", "referenced", "<a href=/x>d</a>", "[d][1]\n\n[1]: /x"),
    ("code_block_style", "fenced", "<pre><code>g</code></pre>", "```\ng\n```"),
    ("code_block_style", "indented", "<pre><code>g</code></pre>", "    g"),
    ("code_block_fence", "backticks", "<pre><code>g</code></pre>", "```\ng\n```"),
    ("code_block_fence", "tildes", "<pre><code>g</code></pre>", "~~~\ng\n~~~"),
    ("bullet_list_marker", "asterisk", "<ul><li>e</li></ul>", "*   e"),
    ("bullet_list_marker", "dash", "<ul><li>e</li></ul>", "-   e"),
    ("ul_bullet_spacing", 1, "<ul><li>e</li></ul>", "* e"),
    ("ol_number_spacing", 1, "<ol><li>e</li></ol>", "1. e"),
    ("preformatted_code", False, "<code> i  j </code>", "`i  j`"),
    ("preformatted_code", True, "<code> i  j </code>", "`  i  j  `"),
    ("scripting", True, "<noscript><b>x</b></noscript>", "\\<b>x\\</b>"),
    ("scripting", False, "<noscript><b>x</b></noscript>", "**x**"),
]


class Conversions(unittest.TestCase):
    def test_page(self):
        self.assertEqual(htmd.convert("<h1>Tea</h1><p>Use <b>fresh</b> water.</p>"), "# Tea\n\nUse **fresh** water.")
        self.assertEqual(htmd.convert(PAGE), "# Hi")
        self.assertEqual(htmd.convert(PAGE.encode()), "# Hi")
        self.assertEqual(htmd.convert(""), "")

    def test_markdown(self):
        html = '<p>a <em>b</em></p>\n<ul>\n<li><input disabled="" type="checkbox"> \xe9</li>\n</ul>\n'
        self.assertEqual(htmd.markdown_to_html("a *b*\n\n- [ ] \xe9"), html)
        self.assertEqual(htmd.markdown_to_html(""), "")
        self.assertEqual(htmd.markdown_to_html(">" * 5000).count("<blockquote>"), 5000)
        with self.assertRaises(TypeError):
            htmd.markdown_to_html(b"a")

    def test_readers(self):
        self.assertEqual(htmd.convert("<ul><li>a<li>b</ul><p>x<b>y<p>z"), "*   a\n*   b\n\nx**y**\n\n**z**")
        self.assertEqual(htmd.convert(PAGE, reader="html5"), "# Hi")
        self.assertEqual(htmd.convert(PAGE, reader="page"), "# Hi")
        with self.assertRaises(htmd.Refused) as raised:
            htmd.convert(PAGE, reader="strict")
        self.assertEqual((raised.exception.place, raised.exception.kind), (15, "TagOutside"))

    def test_modes(self):
        html = "<p>10<sup>3</sup> &amp;copy;</p>"
        self.assertEqual(htmd.convert(html), "10<sup>3</sup> \\&copy;")
        self.assertEqual(htmd.convert(html, mode="guarded"), "10<sup>3</sup> \\&copy;")
        self.assertEqual(htmd.convert(html, mode="pure"), "103 &copy;")
        self.assertEqual(htmd.convert(html, mode="faithful"), "10<sup>3</sup> &copy;")

    def test_options(self):
        for name, value, html, markdown in OPTIONS:
            with self.subTest(name=name, value=value):
                self.assertEqual(htmd.convert(html, mode="pure", **{name: value}), markdown)

    def test_reference_styles(self):
        html = "<a href=/x>d</a>"
        for style, link in [("full", "[d][1]"), ("collapsed", "[d][]"), ("shortcut", "[d]")]:
            markdown = htmd.convert(html, mode="pure", link_style="referenced", link_reference_style=style)
            self.assertEqual(markdown.split("\n")[0], link)

    def test_characters_beyond_ascii(self):
        self.assertEqual(htmd.convert("<p>\u00e4 \u4e2d \U0001f375</p>"), "\u00e4 \u4e2d \U0001f375")

    def test_markdown_longer_than_its_page(self):
        self.assertEqual(htmd.convert("<p>" + "x*y*z " * 5000 + "</p>"), ("x\\*y\\*z " * 5000).strip())


class Documents(unittest.TestCase):
    def test_page(self):
        text = {"type": "text", "value": "Hi"}
        heading = {"type": "heading", "depth": 1, "children": [text]}
        self.assertEqual(htmd.document(PAGE), {"type": "root", "children": [heading]})
        self.assertEqual(htmd.document(PAGE.encode(), reader="page"), htmd.document(PAGE))
        self.assertEqual(htmd.document(""), {"type": "root", "children": []})

    def test_anchors(self):
        html = "<p id=x>a<p id=y>b<a href=#y>c</a>"
        self.assertEqual(htmd.convert(html), 'a\n\n<a id="y"></a>b[c](#y)')
        self.assertEqual(htmd.convert(html, anchors="all"), '<a id="x"></a>a\n\n<a id="y"></a>b[c](#y)')
        self.assertEqual(htmd.convert(html, anchors="none"), "a\n\nb[c](#y)")

    def test_rich(self):
        html = "<details><summary>a</summary>b</details>"
        self.assertEqual(htmd.convert(html), "a\n\nb")
        self.assertEqual(htmd.convert(html, rich=True), "<details>\n<summary>a</summary>\n\nb\n\n</details>")
        tags = {"type": "html", "value": "<details>\n<summary>a</summary>"}
        self.assertEqual(htmd.document(html, rich=True)["children"][0], tags)
        with self.assertRaises(TypeError):
            htmd.convert(html, rich=1)

    def test_scripting(self):
        html = "a<noscript>b</noscript>"
        self.assertEqual(htmd.document(html)["children"][0]["children"], [{"type": "text", "value": "a"}])
        paragraph = htmd.document(html, scripting=False)["children"][0]
        self.assertEqual(paragraph["children"], [{"type": "text", "value": "ab"}])

    def test_refusals(self):
        with self.assertRaises(htmd.Refused) as raised:
            htmd.document(PAGE, reader="strict")
        self.assertEqual((raised.exception.place, raised.exception.kind), (15, "TagOutside"))
        with self.assertRaises(UnicodeDecodeError):
            htmd.document(b"<p>\xff</p>", reader="strict")

    def test_longer_than_its_page(self):
        page = "<p>a<br>b</p>" * 1000
        self.assertEqual(len(htmd.document(page)["children"]), 1000)


class Pieces(unittest.TestCase):
    PAGE = "<title>t</title><h1>T</h1><p>a<h2>A</h2><p>b<h2>B</h2><p>c"

    def pieces(self, page, **options):
        return [json.loads(line) for line in io.StringIO(htmd.convert(page, **options))]

    def test_page(self):
        first, second = self.pieces(self.PAGE, chunks=18)
        self.assertEqual(
            first, {"n": 0, "path": [], "start": 0, "continues": [], "markdown": "# T\n\na\n\n## A\n\nb"}
        )
        self.assertEqual(second, {"n": 1, "path": ["T"], "start": 4, "continues": [], "markdown": "## B\n\nc"})
        self.assertEqual(self.pieces(self.PAGE, chunks=18, mode="pure"), [first, second])
        self.assertEqual(self.pieces("", chunks=18), [])

    def test_front_matter(self):
        (piece,) = self.pieces(self.PAGE, chunks=2**32 - 1, front_matter=True)
        self.assertEqual(piece["front"], {"title": "t"})

    def test_lines(self):
        (piece,) = self.pieces("<p>a\u2028b\u0085c\u2029d", chunks=2000)
        self.assertEqual(piece["markdown"], "a\u2028b\u0085c\u2029d")

    def test_sizes(self):
        for value in (0, -1, 2**32):
            with self.subTest(value=value), self.assertRaises(ValueError):
                htmd.convert(self.PAGE, chunks=value)
        for value in ("1", 1.0, True):
            with self.subTest(value=value), self.assertRaises(TypeError):
                htmd.convert(self.PAGE, chunks=value)


class Pages(unittest.TestCase):
    PAGE = "<title>T</title><nav>n</nav><main><p>a <a href=b>b</a><p class=note>c</main>"

    def test_parts(self):
        self.assertEqual(htmd.convert(self.PAGE, select="main", drop=".note"), "a [b](b)")
        self.assertEqual(htmd.convert(self.PAGE, drop="nav,.note", skip="a,aside"), "a")
        self.assertEqual(len(htmd.document(self.PAGE, select="main")["children"]), 2)

    def test_main_content(self):
        self.assertEqual(htmd.convert(self.PAGE, article=True), "a [b](b)\n\nc")
        self.assertEqual(len(htmd.document(self.PAGE, article=True)["children"]), 2)
        with self.assertRaises(TypeError):
            htmd.convert(self.PAGE, article=1)

    def test_changes(self):
        html = '<title>T</title><p hidden>x</p><p><a href="b">c</a> <img src="data:," alt="d"></p>'
        self.assertEqual(htmd.convert(html, visible=True, images="linked", title=True), "# T\n\n[c](b) d")
        self.assertEqual(htmd.convert(html, visible=True, images="drop", links_as_text=True), "c")
        self.assertEqual(htmd.document(html, visible=True, images="alt", title=True)["children"][0]["depth"], 1)
        with self.assertRaises(TypeError):
            htmd.convert(html, visible=1)
        with self.assertRaises(ValueError):
            htmd.convert(html, images="none")

    def test_addresses_and_front_matter(self):
        markdown = htmd.convert(self.PAGE, select="main > p", base="https://example.org/docs/", front_matter=True)
        self.assertEqual(markdown, '---\ntitle: "T"\n---\n\na [b](https://example.org/docs/b)\n\nc')

    def test_encodings(self):
        page = "<p>\u041f\u0440\u0438\u0432\u0435\u0442".encode("koi8-r")
        self.assertEqual(htmd.convert(page, encoding="koi8-r"), "\u041f\u0440\u0438\u0432\u0435\u0442")
        self.assertEqual(htmd.convert(b"<p>\xff</p>"), "\u00ff")
        self.assertEqual(htmd.convert("<meta charset=koi8-r><p>\u0410"), "\u0410")
        self.assertEqual(htmd.convert(b"<meta charset=big5><p>\xa7A"), "\u4f60")
        for encoding in ("gbk", "gb18030", "big5", "euc-jp", "iso-2022-jp", "shift_jis"):
            with self.subTest(encoding=encoding):
                self.assertEqual(htmd.convert("<p>\u4e00".encode(encoding), encoding=encoding), "\u4e00")
        self.assertEqual(htmd.convert("<p>\ud55c".encode("euc-kr"), encoding="euc-kr"), "\ud55c")

    def test_faults(self):
        with self.assertRaisesRegex(ValueError, "no element"):
            htmd.convert(self.PAGE, select="table")
        for option, value in (
            ("select", "main >"),
            ("drop", ".."),
            ("skip", "a,,b"),
            ("base", "docs/"),
            ("encoding", "utf-7"),
        ):
            with self.subTest(option=option), self.assertRaisesRegex(ValueError, option):
                htmd.convert(b"<p>a", **{option: value})
        with self.assertRaises(TypeError):
            htmd.convert(self.PAGE, select=["main"])


class Refusals(unittest.TestCase):
    def test_kinds(self):
        self.assertEqual(list(REFUSALS), list(_library.KINDS.values()))
        for kind, (html, place) in REFUSALS.items():
            with self.subTest(kind=kind), self.assertRaises(htmd.Refused) as raised:
                htmd.convert(html, reader="strict")
            self.assertEqual((raised.exception.kind, raised.exception.place), (kind, place))

    def test_html5_refuses_nothing(self):
        for kind, (html, _) in REFUSALS.items():
            with self.subTest(kind=kind):
                self.assertIsInstance(htmd.convert(html), str)

    def test_places(self):
        with self.assertRaises(htmd.Refused) as raised:
            htmd.convert("<p>one</p>\n<p>\u00e4wo &nosuch; three</p>\n", reader="page")
        refused = raised.exception
        self.assertEqual((refused.place, refused.line, refused.column), (19, 2, 8))
        self.assertEqual(str(refused), "refused at byte 19: UnknownReference (line 2, column 8)")
        self.assertIsInstance(refused, ValueError)

    def test_pickles(self):
        refused = pickle.loads(pickle.dumps(htmd.Refused(19, "UnknownReference", 2, 8)))
        self.assertEqual((refused.place, refused.kind, refused.line, refused.column), (19, "UnknownReference", 2, 8))

    def test_no_utf8(self):
        with self.assertRaises(UnicodeDecodeError) as raised:
            htmd.convert(b"<p>\xff</p>", reader="strict")
        self.assertEqual(raised.exception.start, 3)
        with self.assertRaises(UnicodeEncodeError):
            htmd.convert("<p>\ud800</p>")

    def test_unknown_options(self):
        for name in _convert.VALUES.keys() - {"output"}:
            with self.subTest(name=name), self.assertRaises(ValueError):
                htmd.convert("", **{name: "no-such"})
        for name in ("ul_bullet_spacing", "ol_number_spacing"):
            for value in (-1, 256):
                with self.subTest(name=name, value=value), self.assertRaises(ValueError):
                    htmd.convert("", **{name: value})
            for value in ("1", 1.0, True):
                with self.subTest(name=name, value=value), self.assertRaises(TypeError):
                    htmd.convert("", **{name: value})
        for name in ("scripting", "preformatted_code", "no_such"):
            with self.subTest(name=name), self.assertRaises(TypeError):
                htmd.convert("", **{name: 1})
        with self.assertRaises(TypeError):
            htmd.convert(None)


class Threads(unittest.TestCase):
    def test_eight_threads_give_what_one_gives(self):
        rows = [
            f"<h2>{n}</h2><ul>" + f"<li>a <b>{n}</b> &amp; <a href=/{n}>b</a></li>" * (n % 40) + "</ul>"
            for n in range(400)
        ]
        alone = [htmd.convert(row) for row in rows]
        with concurrent.futures.ThreadPoolExecutor(8) as pool:
            for _ in range(3):
                self.assertEqual(list(pool.map(htmd.convert, rows)), alone)
            refused = [pool.submit(htmd.convert, f"<p>{'a' * n}&no;", reader="page") for n in range(100)]
        for n, future in enumerate(refused):
            self.assertEqual((future.exception().place, future.exception().column), (3 + n, 4 + n))


class Header(unittest.TestCase):
    """The numbers of the package are those of the header."""

    def setUp(self):
        if not HEADER.exists():
            self.skipTest("the package doesn't lie in its repository")
        self.text = HEADER.read_text()
        self.numbers = {name: int(number) for name, number in re.findall(r"\bHTMD_(\w+) = (\d+)", self.text)}

    def test_statuses_and_kinds(self):
        names = re.findall(r"\bHTMD_(\w+) = \d+", self.text[self.text.index("HTMD_DONE =") :].split("};")[0])
        for name in names:
            self.assertEqual(self.numbers[name], getattr(_library, name))
        for number, kind in _library.KINDS.items():
            self.assertEqual(self.numbers[re.sub(r"(?<!^)([A-Z])", r"_\1", kind).upper()], number)
        version = re.search(r"#define HTMD_OPTIONS_VERSION (\d+)", self.text)
        self.assertEqual(int(version.group(1)), _library.OPTIONS_VERSION)
        self.assertIn(f'#define HTMD_VERSION "{htmd.__version__}"', self.text)

    def test_values(self):
        prefixes = {
            "reader": "",
            "mode": "",
            "heading_style": "HEADING_",
            "hr_style": "HR_",
            "br_style": "BR_",
            "link_style": "LINK_",
            "link_reference_style": "REFERENCE_",
            "code_block_style": "CODE_",
            "code_block_fence": "FENCE_",
            "bullet_list_marker": "BULLET_",
            "output": "",
            "anchors": "ANCHORS_",
            "images": "IMAGES_",
        }
        for name, values in _convert.VALUES.items():
            for value, number in values.items():
                self.assertEqual(self.numbers[prefixes[name] + value.upper().replace("-", "_")], number)

    def test_page_struct(self):
        struct = self.text[self.text.index("typedef struct htmd_page_options") :]
        fields = re.findall(r"(?:htmd_options|htmd_text) (\w+);", struct[: struct.index("}")])
        self.assertEqual(fields, [name for name, _ in _library.PageOptions._fields_])

    def test_struct(self):
        struct = self.text[self.text.index("typedef struct") :]
        fields = re.findall(r"uint(?:8|32)_t (\w+)(?:\[\d+\])?;", struct[: struct.index("}")])
        self.assertEqual(fields, [name for name, _ in _library.Options._fields_])


if __name__ == "__main__":
    unittest.main()
