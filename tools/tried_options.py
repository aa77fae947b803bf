"""What `checks/commonmark` tries of each option of the program, and what it doesn't.

A new option of the program has to be in one of the two, or `checks/manual` fails.
"""
import re
import subprocess

# Nothing, and each value of an option, or some.
OPTIONS = [
    ["", "--heading-style=atx", "--heading-style=setext"],
    ["", "--hr-style=asterisks", "--hr-style=dashes", "--hr-style=underscores"],
    ["", "--br-style=two-spaces", "--br-style=backslash"],
    ["", "--link-style=inlined", "--link-style=inlined-prefer-autolinks", "--link-style=referenced"],
    ["", "--link-reference-style=full", "--link-reference-style=collapsed", "--link-reference-style=shortcut"],
    ["", "--code-block-style=fenced", "--code-block-style=indented"],
    ["", "--code-block-fence=backticks", "--code-block-fence=tildes"],
    ["", "--bullet-list-marker=asterisk", "--bullet-list-marker=dash"],
    ["", *(f"--ul-bullet-spacing={spaces}" for spaces in (0, 1, 2, 3, 4, 5, 255))],
    ["", *(f"--ol-number-spacing={spaces}" for spaces in (0, 1, 2, 3, 4, 5, 255))],
    ["", "--preformatted-code"],
    ["", "--anchors=linked", "--anchors=all", "--anchors=none"],
    ["", "--no-anchors"],
    ["", "--rich"],
    ["", "--no-scripting"],
    ["", "--front-matter"],
    ["", "--title"],
    ["", "--visible"],
    ["", "--article"],
    ["", "--images=keep", "--images=linked", "--images=alt", "--images=drop"],
    ["", "--links=text"],
    ["", "--select=body"],
    ["", "--drop=blockquote,h2 em"],
    ["", "--skip=del,dl"],
    ["", "--base=https://example.org/a/b.html?c#d"],
]
# Why each of the others isn't tried.
NOT_TRIED = {
    "--web": "all runs have it",
    "--html5": "--web has it",
    "--guarded": "--web has it",
    "--encoding": "all runs have one",
    "--rows": "all runs have it",
    "--from-markdown": "the input is HTML",
    "--html": "only with --from-markdown",
    "--body": "only without --html5",
    "--text": "only without --html5",
    "--explain": "changes nothing that is written",
    "--faithful": "has no effect with --guarded",
    "--mdast": "gives the document that Markdown is compared with",
    "--chunks": "gives no Markdown",
}


def options_of(lines):
    """The options that lines of the help list, each with its fixed values, or its part before any other value."""
    found = []
    for line in lines:
        fixed = re.match(r"(--[a-z-]+=) +([^:]*)", line)
        if fixed:
            found += [fixed[1] + value.split()[0] for value in fixed[2].split(", ")]
        else:
            found += re.findall(r"^(?:-\w, )?(--[a-z0-9-]+(?:=[a-z-]+\b)?)", line)
    return found


def help_options(program):
    """The options that the program's help lists for what is read, what is written and style."""
    text = subprocess.run([program, "--help"], stdout=subprocess.PIPE, check=True).stdout.decode()
    sections = re.findall(r"^(?:Input|What is written|Style):\n(.*?)\n\n", text, re.MULTILINE | re.DOTALL)
    return {option for section in sections for option in options_of(section.splitlines())}


def left(program):
    """The options of the program that are neither tried nor named with a reason, and what names no option."""
    tried = {value for values in OPTIONS for value in values if value}
    options = help_options(program)
    names = {option.partition("=")[0] for option in options}
    unknown = [word for word in (*NOT_TRIED, *tried) if word.partition("=")[0] not in names]
    missing = [o for o in options if o not in NOT_TRIED and not any(t == o or t.startswith(o + "=") for t in tried)]
    return sorted(missing + unknown)
