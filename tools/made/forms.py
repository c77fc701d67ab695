"""What several lists look like: a table of Markdown, an enum of C, a comment of Rust, names in rows."""
import os
import re
import textwrap

from formats import TOP, named


def read(path):
    with open(os.path.join(TOP, path), encoding="utf-8") as file:
        return file.read()


def capital(text):
    """A text that begins a sentence."""
    return f"{text[0].upper()}{text[1:]}"


def wrapped(text, width, first="", others=""):
    """The lines of a text, with what is in front of the first one and of others. No line ends at a \\0, which is a space."""
    rows = textwrap.wrap(text, width, initial_indent=first, subsequent_indent=others, break_on_hyphens=False)
    return [row.replace("\0", " ") for row in rows]


def comment(indent, text, width=118):
    """A text for rustdoc. No line begins with the sign of a sum, which would be that of a list."""
    mark = f"{indent}/// "
    return wrapped(re.sub(" ([+-]) ", "\0\\1\0", text), width, mark, mark)


def listed(form, named_facts):
    """A line for each name, by its facts."""
    return [form.format(**{"name": name, **fact}) for name, fact in named_facts.items()]


def without(names, others):
    return {name: fact for name, fact in names.items() if name not in others}


def in_rows(indent, items):
    """Items with a comma after each, some a line."""
    return wrapped(" ".join(f"{item},".replace(" ", "\0") for item in items), 120, indent, indent)


def markdown(heads, rows):
    """A table of Markdown."""
    yield f"| {' | '.join(heads)} |"
    yield "|---" * len(heads) + "|"
    for row in rows:
        yield named(f"| {' | '.join(row)} |")


def enumerators(prefix, facts):
    """An enum of C, with what each number means beside it."""
    width = max(len(f"{prefix}{name} = {fact['number']},") for name, fact in facts.items())
    last = list(facts)[-1]
    for name, fact in facts.items():
        front = f"{prefix}{name} = {fact['number']}{',' * (name != last)}"
        yield from wrapped(f"/* {fact['means']} */", 119, f"\t{front:{width}}  ", f"\t{'':{width}}     ")
