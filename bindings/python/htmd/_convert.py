"""The conversion."""

import ctypes
import functools
import json
from typing import Any, Dict, Literal, Mapping, Optional, Tuple, Union

from htmd import _library

Reader = Literal["html5", "page", "strict"]
Mode = Literal["guarded", "faithful", "pure"]
HeadingStyle = Literal["atx", "setext"]
HrStyle = Literal["asterisks", "dashes", "underscores"]
BrStyle = Literal["two-spaces", "backslash"]
LinkStyle = Literal["inlined", "inlined-prefer-autolinks", "referenced"]
LinkReferenceStyle = Literal["full", "collapsed", "shortcut"]
CodeBlockStyle = Literal["fenced", "indented"]
CodeBlockFence = Literal["backticks", "tildes"]
BulletListMarker = Literal["asterisk", "dash"]
Anchors = Literal["linked", "all", "none"]
Images = Literal["keep", "linked", "alt", "drop"]

#: The values of each option, and their numbers in the struct.
VALUES: Mapping[str, Mapping[str, int]] = {
    "reader": {"strict": 0, "page": 1, "html5": 2},
    "mode": {"pure": 0, "faithful": 1, "guarded": 2},
    "heading_style": {"atx": 0, "setext": 1},
    "hr_style": {"asterisks": 0, "dashes": 1, "underscores": 2},
    "br_style": {"two-spaces": 0, "backslash": 1},
    "link_style": {"inlined": 0, "inlined-prefer-autolinks": 1, "referenced": 2},
    "link_reference_style": {"full": 0, "collapsed": 1, "shortcut": 2},
    "code_block_style": {"fenced": 0, "indented": 1},
    "code_block_fence": {"backticks": 0, "tildes": 1},
    "bullet_list_marker": {"asterisk": 0, "dash": 1},
    "output": {"markdown": 0, "mdast": 1},
    "anchors": {"linked": 0, "all": 1, "none": 2},
    "images": {"keep": 0, "linked": 1, "alt": 2, "drop": 3},
}

# The bytes of the buffer beyond those of the page. What doesn't fit is converted a second time.
_SPARE = 1024


class Refused(ValueError):
    """The page is outside the strict grammar, and nothing of it was converted.

    place: the byte of the page, in UTF-8 and from 0, of its first U+0000, or if it has none, of its first fault
    kind: what is wrong there, such as `UnknownReference`; docs/GRAMMAR.md of the repository has all kinds
    line, column: the same place in lines and characters, both from 1
    """

    def __init__(self, place: int, kind: str, line: int, column: int) -> None:
        super().__init__(place, kind, line, column)
        self.place = place
        self.kind = kind
        self.line = line
        self.column = column

    def __str__(self) -> str:
        return f"refused at byte {self.place}: {self.kind} (line {self.line}, column {self.column})"


def convert(
    html: Union[str, bytes],
    *,
    mode: Mode = "guarded",
    reader: Reader = "html5",
    scripting: bool = True,
    heading_style: HeadingStyle = "atx",
    hr_style: HrStyle = "asterisks",
    br_style: BrStyle = "two-spaces",
    link_style: LinkStyle = "inlined",
    link_reference_style: LinkReferenceStyle = "full",
    code_block_style: CodeBlockStyle = "fenced",
    code_block_fence: CodeBlockFence = "backticks",
    bullet_list_marker: BulletListMarker = "asterisk",
    ul_bullet_spacing: int = 3,
    ol_number_spacing: int = 2,
    preformatted_code: bool = False,
    visible: bool = False,
    article: bool = False,
    select: str = "",
    drop: str = "",
    skip: str = "",
    images: Images = "keep",
    links_as_text: bool = False,
    title: bool = False,
    base: str = "",
    front_matter: bool = False,
    encoding: Optional[str] = None,
    anchors: Anchors = "linked",
    rich: bool = False,
    chunks: Optional[int] = None,
) -> str:
    """Converts a page, a text or its bytes, to Markdown.

    mode: "guarded" writes what a reader sees of the page without its styles, so that its Markdown is read back as the
        same; "pure" gives the Markdown of the Rust crate htmd; "faithful" is like "pure", but keeps as HTML what
        Markdown can't express
    reader: "html5" reads any page as browsers do and refuses none; "page" reads what is between the tags of the body
        by a strict grammar, and "strict" the whole text
    scripting: whether scripts run: then "guarded" leaves `noscript` out, and for "pure" its content is one text
    heading_style: "atx" or "setext"
    hr_style: "asterisks", "dashes" or "underscores"
    br_style: "two-spaces" or "backslash"
    link_style: "inlined", "inlined-prefer-autolinks" or "referenced"
    link_reference_style: "full", "collapsed" or "shortcut"
    code_block_style: "fenced" or "indented"
    code_block_fence: "backticks" or "tildes"
    bullet_list_marker: "asterisk" or "dash"
    ul_bullet_spacing, ol_number_spacing: the spaces after a bullet and after a number, 0 to 255; in "guarded" 1 to 4
    preformatted_code: whether the white space of code spans is kept
    visible: whether what the page hides is left out: by `hidden`, `aria-hidden="true"` or a style of its own
    article: whether only the main content of the page is converted, without menus and the like
    select: selectors with commas between them, as "main,.note": only the outermost elements that they name are
        converted
    drop: selectors of what is left out, before other elements are selected
    skip: names of elements that give nothing, with commas between them
    images: "keep", or "linked": images whose data stands in the page are their text, or "alt": all are, or "drop"
    links_as_text: whether links are written as their text, without addresses
    title: whether the page's title comes first, as a heading, if no `h1` that is converted shows anything
    base: the URL of the page: addresses are made absolute
    front_matter: whether what the head of the page says about it is written first
    encoding: the label of the encoding of bytes without a byte order mark, if it is known; without it, "html5" takes
        bytes that are UTF-8 as such, and others by what the page says about itself. A `str` needs none
    anchors: which places of links "guarded" keeps: "linked" those that links of the page lead to, "all" also those that
        links of other pages may lead to, "none" none
    rich: whether "guarded" also writes, as HTML, what Markdown has no form for: details, captions, terms and what they
        mean, marks, keys, tables with blocks in their cells
    chunks: if it is given, what "guarded" writes comes in pieces of at most so many bytes of Markdown, where it can be
        cut, whatever the mode is: a line of JSON for each, with a line feed behind it. `io.StringIO(text)` gives the
        lines; `str.splitlines` would also split at U+2028 and the like, which JSON leaves as they are

    "guarded" ignores link_reference_style, code_block_style and preformatted_code: references are full, code blocks
    fenced, and the white space of code spans is squeezed.

    Raises `Refused` for a page outside the strict grammar (never with "html5"), `UnicodeError` for bytes that are not
    UTF-8 (never with "html5"), `ValueError` if no element is selected, `ValueError` and `TypeError` for an unknown
    option or value, and `MemoryError`. Calls from several threads run in parallel.
    """
    options = _options(
        ul_bullet_spacing,
        ol_number_spacing,
        chunks,
        scripting=scripting,
        preformatted_code=preformatted_code,
        front_matter=front_matter,
        rich=rich,
        article=article,
        visible=visible,
        links_as_text=links_as_text,
        title=title,
        output="markdown",
        reader=reader,
        mode=mode,
        heading_style=heading_style,
        hr_style=hr_style,
        br_style=br_style,
        link_style=link_style,
        link_reference_style=link_reference_style,
        code_block_style=code_block_style,
        code_block_fence=code_block_fence,
        bullet_list_marker=bullet_list_marker,
        anchors=anchors,
        images=images,
    )
    return _written(html, options, _texts(select, drop, skip, base, encoding))


def document(
    html: Union[str, bytes],
    *,
    reader: Reader = "html5",
    scripting: bool = True,
    visible: bool = False,
    article: bool = False,
    select: str = "",
    drop: str = "",
    skip: str = "",
    images: Images = "keep",
    links_as_text: bool = False,
    title: bool = False,
    base: str = "",
    encoding: Optional[str] = None,
    anchors: Anchors = "linked",
    rich: bool = False,
) -> Dict[str, Any]:
    """What a reader sees of a page, a text or its bytes, in the form of mdast 4: dicts and lists.

    Returns the `root`; each node is a dict with its `type` and, if the type has them, `children`, `value` and other
    members. `docs/DOCUMENT.md` of the repository says what each element becomes. From these values a program can take
    headings, links or tables; `convert` writes them as Markdown. The options mean what they mean there.

    Raises what `convert` raises.
    """
    options = _options(
        3,
        2,
        None,
        scripting=scripting,
        rich=rich,
        article=article,
        visible=visible,
        links_as_text=links_as_text,
        title=title,
        output="mdast",
        reader=reader,
        mode="guarded",
        anchors=anchors,
        images=images,
    )
    return json.loads(_written(html, options, _texts(select, drop, skip, base, encoding)))


def markdown_to_html(markdown: str) -> str:
    """The HTML of Markdown, as CommonMark 0.31.2 and GitHub (tables, strikethrough, tasks) say it.

    HTML that stands in the Markdown stays as it is, also what isn't safe to show. Only `MemoryError` is raised, but
    `TypeError` if it isn't a `str`.
    """
    if not isinstance(markdown, str):
        raise TypeError(f"markdown is of type {type(markdown).__name__}, and not str")
    text = markdown.encode("utf-8")
    size = 2 * len(text) + _SPARE
    needed = ctypes.c_size_t()
    place = ctypes.c_size_t()
    while True:
        out = bytearray(size)
        buffer = ctypes.c_uint8.from_buffer(out)
        status = _library.markdown_to_html(text, len(text), buffer, size, needed, place)
        if status != _library.TOO_SMALL:
            break
        size = needed.value
    if status == _library.DONE:
        return str(memoryview(out)[: needed.value], "utf-8")
    raise _error(status, text, {}, place.value, 0)


#: The names of the texts that a page's struct holds, in order.
_TEXTS = ("select", "drop", "skip", "base", "encoding")


def _texts(*texts: Optional[str]) -> Dict[str, bytes]:
    """The texts of a page's struct, in UTF-8."""
    for name, text in zip(_TEXTS, texts):
        if text is not None and not isinstance(text, str):
            raise TypeError(f"{name} is {text!r}, and not a str")
    return {name: (text or "").encode("utf-8") for name, text in zip(_TEXTS, texts)}


def _written(html: Union[str, bytes], options: _library.Options, texts: Dict[str, bytes]) -> str:
    """What a page becomes by the options. A `str` is UTF-8, whatever the page says about itself."""
    if isinstance(html, str):
        text = html.encode("utf-8")
        texts = {**texts, "encoding": b"utf-8"}
    else:
        text = html
    if not isinstance(text, bytes):
        raise TypeError(f"html is of type {type(html).__name__}, and not str or bytes")
    page = _library.PageOptions(
        options=options, **{name: _library.Text(given, len(given)) for name, given in texts.items()}
    )
    status, out, needed, place, kind = _call(text, page, len(text) + _SPARE)
    if status == _library.TOO_SMALL:
        status, out, needed, place, kind = _call(text, page, needed)
    if status == _library.DONE:
        return str(memoryview(out)[:needed], "utf-8")
    raise _error(status, text, texts, place, kind)


@functools.lru_cache(maxsize=64, typed=True)
def _options(
    ul_bullet_spacing: int, ol_number_spacing: int, chunks: Optional[int], **values: Union[bool, str]
) -> _library.Options:
    """The struct that says these options; it is never written again, so that threads may share it."""
    numbers = {name: _number(name, value) if name in VALUES else _flag(name, value) for name, value in values.items()}
    return _library.Options(
        version=_library.OPTIONS_VERSION,
        ul_bullet_spacing=_whole("ul_bullet_spacing", ul_bullet_spacing, 0, 255),
        ol_number_spacing=_whole("ol_number_spacing", ol_number_spacing, 0, 255),
        chunk_bytes=0 if chunks is None else _whole("chunks", chunks, 1, 2**32 - 1),
        **numbers,
    )


def _number(name: str, value: Union[bool, str]) -> int:
    known = VALUES[name]
    if value not in known:
        raise ValueError(f"{name} is {value!r}; known are {', '.join(map(repr, known))}")
    return known[value]


def _flag(name: str, value: Union[bool, str]) -> bool:
    if not isinstance(value, bool):
        raise TypeError(f"{name} is {value!r}, and not a bool")
    return value


def _whole(name: str, value: int, least: int, most: int) -> int:
    if not isinstance(value, int) or isinstance(value, bool):
        raise TypeError(f"{name} is {value!r}, and not an int")
    if not least <= value <= most:
        raise ValueError(f"{name} is {value}; it may be {least} to {most}")
    return value


def _call(text: bytes, options: _library.PageOptions, size: int) -> Tuple[int, bytearray, int, int, int]:
    """One call with a buffer of this size: the status, the buffer, and what is needed, the place and the kind."""
    out = bytearray(size)
    needed = ctypes.c_size_t()
    place = ctypes.c_size_t()
    kind = ctypes.c_uint8()
    status = _library.convert_page(
        text, len(text), options, ctypes.c_uint8.from_buffer(out), size, needed, place, kind
    )
    return status, out, needed.value, place.value, kind.value


#: What each text has to be.
_WANTED = {
    _library.BAD_SELECT: ("select", "selectors with commas between them"),
    _library.BAD_DROP: ("drop", "selectors with commas between them"),
    _library.BAD_SKIP: ("skip", "names with commas between them"),
    _library.BAD_BASE: ("base", "an absolute URL"),
    _library.BAD_ENCODING: ("encoding", "the label of an encoding"),
}


def _error(status: int, text: bytes, texts: Dict[str, bytes], place: int, kind: int) -> Exception:
    if status == _library.REFUSED:
        return Refused(place, _library.KINDS[kind], *_line_and_column(text, place))
    if status == _library.NOT_UTF8:
        return UnicodeDecodeError("utf-8", text, place, place + 1, "not UTF-8")
    if status == _library.NO_MEMORY:
        return MemoryError()
    if status == _library.NOTHING_SELECTED:
        return ValueError("no element of the page is selected")
    if status in _WANTED:
        name, wanted = _WANTED[status]
        return ValueError(f"{name} is {texts[name].decode('utf-8')!r}, and not {wanted}")
    return RuntimeError(f"the library answers {status}")


def _line_and_column(text: bytes, place: int) -> Tuple[int, int]:
    line = ctypes.c_size_t()
    column = ctypes.c_size_t()
    _library.line_and_column(text, len(text), place, line, column)
    return line.value, column.value
