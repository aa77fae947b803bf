"""The C library: its struct of options, its numbers and its functions, as `bindings/c/htmd.h` has them."""

import ctypes
import os

OPTIONS_VERSION = 1

DONE = 0
TOO_SMALL = 1
REFUSED = 2
NOT_UTF8 = 3
NO_MEMORY = 4
BAD_OPTIONS = 5
UNSUPPORTED = 6
NOTHING_SELECTED = 7
BAD_SELECT = 8
BAD_DROP = 9
BAD_SKIP = 10
BAD_BASE = 11
BAD_ENCODING = 12

#: The kinds of a refusal, by number.
KINDS = {
    1: "Nul",
    2: "MalformedTag",
    3: "MalformedComment",
    4: "MalformedDeclaration",
    5: "UnknownReference",
    6: "BadNumber",
    7: "DuplicateAttribute",
    8: "SelfClosing",
    9: "TagOutside",
    10: "NotAllowedHere",
    11: "StrayEndTag",
    12: "StrayText",
    13: "Unclosed",
    14: "ScriptEscape",
    15: "TooDeep",
}


class Options(ctypes.Structure):
    """What a conversion goes by, in numbers."""

    _fields_ = [
        ("version", ctypes.c_uint8),
        ("reader", ctypes.c_uint8),
        ("mode", ctypes.c_uint8),
        ("scripting", ctypes.c_uint8),
        ("heading_style", ctypes.c_uint8),
        ("hr_style", ctypes.c_uint8),
        ("br_style", ctypes.c_uint8),
        ("link_style", ctypes.c_uint8),
        ("link_reference_style", ctypes.c_uint8),
        ("code_block_style", ctypes.c_uint8),
        ("code_block_fence", ctypes.c_uint8),
        ("bullet_list_marker", ctypes.c_uint8),
        ("ul_bullet_spacing", ctypes.c_uint8),
        ("ol_number_spacing", ctypes.c_uint8),
        ("preformatted_code", ctypes.c_uint8),
        ("output", ctypes.c_uint8),
        ("front_matter", ctypes.c_uint8),
        ("anchors", ctypes.c_uint8),
        ("rich", ctypes.c_uint8),
        ("article", ctypes.c_uint8),
        ("visible", ctypes.c_uint8),
        ("images", ctypes.c_uint8),
        ("links_as_text", ctypes.c_uint8),
        ("title", ctypes.c_uint8),
        ("chunk_bytes", ctypes.c_uint32),
        ("reserved", ctypes.c_uint8 * 4),
    ]


class Text(ctypes.Structure):
    """A text, and the number of its bytes."""

    _fields_ = [("bytes", ctypes.c_char_p), ("len", ctypes.c_size_t)]


class PageOptions(ctypes.Structure):
    """What the conversion of a page goes by."""

    _fields_ = [
        ("options", Options),
        ("select", Text),
        ("drop", Text),
        ("skip", Text),
        ("base", Text),
        ("encoding", Text),
    ]


def _load() -> ctypes.CDLL:
    path = os.path.join(os.path.dirname(os.path.abspath(__file__)), "libhtmd.so")
    try:
        return ctypes.CDLL(path)
    except OSError as error:
        raise ImportError(f"{error}; bindings/c/build of the repository makes it") from error


_size = ctypes.c_size_t
_size_out = ctypes.POINTER(ctypes.c_size_t)

_loaded = _load()

# A `CDLL` lets other threads run while one is in a call.
convert = _loaded.htmd_convert
convert.restype = ctypes.c_uint32
convert.argtypes = [
    ctypes.c_char_p,
    _size,
    ctypes.POINTER(Options),
    ctypes.POINTER(ctypes.c_uint8),
    _size,
    _size_out,
    _size_out,
    ctypes.POINTER(ctypes.c_uint8),
]

convert_page = _loaded.htmd_convert_page
convert_page.restype = ctypes.c_uint32
convert_page.argtypes = [
    ctypes.c_char_p,
    _size,
    ctypes.POINTER(PageOptions),
    ctypes.POINTER(ctypes.c_uint8),
    _size,
    _size_out,
    _size_out,
    ctypes.POINTER(ctypes.c_uint8),
]

markdown_to_html = _loaded.htmd_markdown_to_html
markdown_to_html.restype = ctypes.c_uint32
markdown_to_html.argtypes = [ctypes.c_char_p, _size, ctypes.POINTER(ctypes.c_uint8), _size, _size_out, _size_out]

line_and_column = _loaded.htmd_line_and_column
line_and_column.restype = ctypes.c_uint32
line_and_column.argtypes = [ctypes.c_char_p, _size, _size, _size_out, _size_out]
