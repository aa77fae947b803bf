#!/usr/bin/env python3
"""Checks the answers to cases that ask for the Markdown of texts, from the rules for texts in docs/CONVERSION.md.

    crates/htmd_test_cases/check_texts.py [--others]

Each rule below is written from the sentence that its comment quotes, and not from the code or the definitions. The rows
are those of the stored run and of the families in `data` that ask for the Markdown of one text (the setting `text`, or
`program` with the option `--text`), or of HTML that is paragraphs and texts between them and nothing else, with any
settings but skipped tags. A row of one text with a setting that isn't known here counts as failed.

With `--others` it checks nothing, and names each row that it doesn't know the answer to: a person has to judge these.

It needs Python 3.8. The last line is 'N rows, M failed'; the status is 0 only if there are rows and none failed.
"""
import os
import re
import sys
import unicodedata
from html.entities import html5

FOLDER = os.path.dirname(os.path.abspath(__file__))
CODES = {"\\": "\\", "n": "\n", "r": "\r", "t": "\t", "0": "\0"}
NAMES_OF_CODES = {character: name for name, character in CODES.items()}
# What Markdown writes the same whatever these options of the program say of pages and of HTML.
IDLE_OPTIONS = {"--text", "--body", "--html5", "--no-scripting", "--faithful", "--explain", "--front-matter"}
# The same of options with a value: they change the tree of a page, and a text has none.
IDLE_VALUES = ("--select=", "--drop=", "--base=")
PARAGRAPHS = re.compile(r"(?:<p>[^<\0]*</p>|[^<\0])*")
# "`&`, a name and `;` are a character, for these 44 names" (docs/GRAMMAR.md, Characters and references)
NAMES = (
    "amp lt gt quot apos nbsp copy reg deg middot laquo raquo frac12 times agrave auml ccedil egrave eacute ouml uuml "
    "szlig ndash mdash lsquo rsquo ldquo rdquo bull hellip euro trade iexcl cent pound yen sect plusmn micro para "
    "iquest aacute iacute ntilde"
).split(" ")
REFERENCE = re.compile(r"&(?:#|([A-Za-z0-9]+);)")


def decoded(code):
    """A text of a case: a backslash stands before the letter of some characters."""
    return re.sub(r"\\(.)", lambda found: CODES[found.group(1)], code, flags=re.DOTALL)


def encoded(text):
    """A text as a case has it."""
    return re.sub(r"[\\\n\r\t\0]", lambda found: "\\" + NAMES_OF_CODES[found.group(0)], text)


def squeezed(text):
    # "Each run of spaces, tabs, line feeds, carriage returns and form feeds is one space."
    return re.sub("[ \t\n\r\f]+", " ", text)


def is_numeric(character):
    # "A character is numeric if its general category is Nd, Nl or No" (docs/DECISIONS.md, Texts)
    return unicodedata.category(character) in ("Nd", "Nl", "No")


def number_dot(text):
    # "before the last dot of a number that begins it, if a space follows. The number is an ASCII digit and any numeric
    # characters, and one or more dots."
    end = 0
    while end < len(text) and is_numeric(text[end]):
        end += 1
    dots = len(text[end:]) - len(text[end:].lstrip("."))
    if text[:1] in tuple("0123456789") and dots and text[end + dots :].startswith(" "):
        return end + dots - 1
    return None


def begins_block(text):
    # "before `=`, `~` or `>` that begins the text"
    # "before `-` or `+` that begins it, if a space follows"
    # "before `#` that begins it, if after one or more `#` a space follows"
    return bool(re.match("[=~>]|[-+] |#+ ", text))


def opens_html(rest):
    # "before `<`, if a letter, `?`, `/` and a letter, or `!` follows; but not at `<![CDATA[`"
    return bool(re.match(r"<(?:[A-Za-z?!]|/[A-Za-z])", rest)) and not rest.startswith("<![CDATA[")


def escaped(text):
    marked = set()
    for place, character in enumerate(text):
        # "before each `\`, `*`, `_`, backquote, `[` and `]`"
        if character in "\\*_`[]" or opens_html(text[place:]):
            marked.add(place)
    if begins_block(text):
        marked.add(0)
    if number_dot(text) is not None:
        marked.add(number_dot(text))
    return "".join(("\\" if place in marked else "") + character for place, character in enumerate(text))


def markdown(text):
    # "At the beginning of a block, and after a space, that space goes; before a block it goes too."
    # "These rules look at each text of the page by itself, after its white space is squeezed and its first space
    # dropped."
    text = squeezed(text)
    text = escaped(text[1:] if text.startswith(" ") else text)
    return text[:-1] if text.endswith(" ") else text


def paragraphs(html):
    """The texts of HTML that is paragraphs and texts between them; nothing for other HTML or refused references."""
    names = {found.group(1) for found in REFERENCE.finditer(html)}
    if not PARAGRAPHS.fullmatch(html) or not names <= set(NAMES):
        return None
    # "U+FEFF at the very beginning means nothing." (docs/GRAMMAR.md, The document)
    html = html[1:] if html.startswith("\ufeff") else html
    texts = re.split("</?p>", html)
    return [REFERENCE.sub(lambda found: html5[found.group(1) + ";"], text) for text in texts]


def markdown_of_paragraphs(texts):
    # "The content of `p` is put between blank lines." "Where blocks meet, at most one blank line stands between them."
    return "\n\n".join(filter(None, map(markdown, texts)))


def question(settings):
    """What follows the Markdown of a text in the answer to a case with these settings; nothing if it asks for more."""
    words = settings.split(" ")
    if words == ["text"]:
        return ""
    given = {word for word in words[1:] if not word.startswith(IDLE_VALUES)}
    if words[0] == "program" and "--text" in words and IDLE_OPTIONS.issuperset(given):
        # "Line feeds at both ends of the answer are cut, and the program adds one after it."
        return "\n"
    return None


def lines(name):
    with open(os.path.join(FOLDER, name), encoding="utf-8", newline="\n") as file:
        return file.read().split("\n")[:-1]


def rows():
    """Each row: where it is, its settings, the text and the answer."""
    for number, (case, answer) in enumerate(zip(lines("stdin"), lines("stdout")), 1):
        settings, text = case.split("\t")
        yield f"stdin:{number}", settings, text, answer
    for family in sorted(os.listdir(os.path.join(FOLDER, "data"))):
        for number, line in enumerate(lines(os.path.join("data", family)), 1):
            if not line.startswith("#"):
                settings, text, answer = line.split("\t")
                yield f"data/{family}:{number}", settings, text, answer


def answer_by_rules(settings, text):
    """What the rules answer to a case; `...` if it asks for something else, nothing if its settings aren't known."""
    words = settings.split(" ")
    if {"--guarded", "--web", "--from-markdown", "--mdast", "--chunks"}.intersection(words):
        return ...
    if "text" in words or "--text" in words:
        end = question(settings)
        return None if end is None else markdown(text) + end
    asks_for_more = (
        words[0] in ("read", "tree", "seen-tree", "program", "html5", "document", "nodes") or "skip_tags" in settings
    )
    texts = None if asks_for_more else paragraphs(text)
    return ... if texts is None else markdown_of_paragraphs(texts)


def name_others():
    """Names the rows that a person has to judge."""
    others = [place for place, settings, text, answer in rows() if answer_by_rules(settings, decoded(text)) is ...]
    print("\n".join(others))
    print(f"{len(others)} rows for a person to judge")


def main():
    if sys.argv[1:] == ["--others"]:
        name_others()
        return 0
    count = failed = 0
    for place, settings, text, answer in rows():
        found = answer_by_rules(settings, decoded(text))
        if found is ...:
            continue
        count += 1
        by_rules = "settings that aren't known" if found is None else "=" + encoded(found)
        if by_rules != answer:
            failed += 1
            print(f"{place}: the row has\n{answer}\nthe rules give\n{by_rules}")
    print(f"{count} rows, {failed} failed")
    return 0 if count and not failed else 1


if __name__ == "__main__":
    sys.exit(main())
