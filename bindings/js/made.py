"""What tools/facts makes here of facts/, and of the comments in index.js."""
import re

from made.forms import in_rows, listed, markdown, read
from made.statuses import TIMERS

FILES = ["README.md", "index.d.ts", "index.js"]


def methods_in_javascript():
    """The methods and numbers of JavaScript's Timers, by the comments in index.js: the text, the type and the name."""
    form = r"^  /\*\* (?:(.*)\n   \* )?@type \{(.*)\} \*/\n  (?:get |\*)?(\w+)\("
    return re.findall(form, read("bindings/js/index.js"), re.MULTILINE)


def calls_in_javascript():
    for text, of, name in methods_in_javascript():
        yield from [f"  /** {text} */"] * bool(text)
        yield f"  {name}{'): '.join(of.rsplit(') => ', 1))};" if of.startswith("(") else f"  readonly {name}: {of};"


def rows_of_javascript():
    for text, of, name in methods_in_javascript():
        given = ", ".join(re.findall(r"(\w+\??): ", of))
        yield [f"`{name}({given})`" if of.startswith("(") else f"`{name}`", text]


LISTS = {
    "statuses in JavaScript": lambda: in_rows("  ", listed("{name}: {number}", TIMERS)),
    "texts in JavaScript": lambda: in_rows("  ", listed('"{text}"', TIMERS)),
    "types of statuses": lambda: listed("  /** {text} */\n  readonly {name}: {number};", TIMERS),
    "calls in JavaScript": calls_in_javascript,
    "table of calls in JavaScript": lambda: markdown(["Call", "What it does"], rows_of_javascript()),
}
