"""What the generators of tables share: each makes tables of a standard's data, and writes them where they stand.

`tools/NAME` writes its tables, and `tools/NAME --check` says which differ from what the repository holds; its last line
is `N passed, M failed`. A table is found by the line that declares it, in any crate. White space doesn't count, so
that `rt fmt` may lay a table out; run it after a table was written. Those of many characters, which are marked with
`rattlefmt::skip`, are laid out here.
"""
import glob
import os
import re
import subprocess
import sys

ROOT = os.path.dirname(os.path.dirname(os.path.abspath(__file__)))


class Table:
    """The text of a table from the line that declares it to the end, and the name by which it is told."""

    def __init__(self, name, begins, ends, text):
        self.name = name
        self.pattern = re.compile(rf"^{begins}.*?{ends}$", re.MULTILINE | re.DOTALL)
        self.text = text


def rows(items):
    """Items in lines of at most 120 bytes, for a table that `rt fmt` leaves as it is."""
    lines = [""]
    for item in items:
        if len(f"  {lines[-1]} {item},".encode()) > 120:
            lines.append("")
        lines[-1] += f" {item}," if lines[-1] else f"{item},"
    return lines


def code(name, what, items, is_laid_out=False):
    """A constant or static array of Rattle, an item a line, or in lines that are laid out."""
    begins = rf"(?:pub(?:\([^)]*\))? )?(?:static|const) {name}: \[.*?; \d+\] = \["
    lines = [f"  {row}" for row in rows(items)] if is_laid_out else [f"    {item}," for item in items]
    text = f"{name}: [{what}; {len(items)}] = [" + "".join(f"\n{line}" for line in lines) + "\n];"
    return Table(name, begins, r"\];", text)


def definition(name, items):
    """A definition that is a list."""
    body = "\n    ∷ ".join([*items, "[]"])
    return Table(name, rf"{name} =\s", r"∷ \[\]", f"{name} =\n    {body}")


def quoted(text):
    """A text of Rattle: printable ASCII as it is, and all other characters by their numbers."""
    known = {'"': '\\"', "\\": "\\\\"}
    return '"' + "".join(known.get(c) or (c if " " <= c <= "~" else f"\\u{{{ord(c):x}}}") for c in text) + '"'


def codes(text):
    return f'codes "{text}"'


def bare(text):
    """A table without white space and without what stands before its name."""
    text = re.sub(r"^(?:pub(?:\([^)]*\))? )?(?:static|const) ", "", text.replace("\\\n", "\n"))
    return re.sub(r",(?=[\])])", "", re.sub(r"\s+", "", text))


def sources():
    found = {}
    for part, ending in (("src", "rt"), ("specs", "antt")):
        for path in glob.glob(os.path.join(ROOT, f"crates/*/{part}/**/*.{ending}"), recursive=True):
            with open(path, encoding="utf-8") as file:
                found[path] = file.read()
    return found


def write(path, text):
    with open(path, "w", encoding="utf-8") as file:
        file.write(text)


def install(package, path):
    """Whether a Debian package is there; with `--install` it is installed where it is missing, as root."""
    if not os.path.exists(path) and "--install" in sys.argv:
        subprocess.run(["apt-get", "update", "-qq"], stdout=subprocess.DEVNULL, check=True)
        subprocess.run(["apt-get", "install", "-y", "-qq", package], stdout=subprocess.DEVNULL, check=True)
    if os.path.exists(path):
        return True
    print(f"left out, since {package} isn't installed: {os.path.basename(sys.argv[0])}")
    return False


def main(tables):
    """Writes the tables, or with `--check` compares them."""
    texts = sources()
    passed = failed = 0
    for table in tables:
        places = [(path, it) for path, text in texts.items() for it in table.pattern.finditer(text)]
        if len(places) != 1:
            failed += 1
            print(f"{table.name} stands {len(places)} times")
            continue
        path, found = places[0]
        if bare(found.group()) == bare(table.text):
            passed += 1
        elif "--check" in sys.argv:
            failed += 1
            print(f"{table.name} in {os.path.relpath(path, ROOT)} isn't what {os.path.basename(sys.argv[0])} makes")
        else:
            passed += 1
            before = re.match(r"(?:pub(?:\([^)]*\))? )?(?:(?:static|const) )?", found.group()).group()
            texts[path] = texts[path][:found.start()] + before + table.text + texts[path][found.end():]
            write(path, texts[path])
            print(f"{table.name} is written into {os.path.relpath(path, ROOT)}")
    print(f"{passed} passed, {failed} failed")
    return 1 if failed or not passed else 0
