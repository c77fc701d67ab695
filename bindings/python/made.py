"""What tools/facts makes here of facts/, of the headers, and of what stands beside the methods in extension/wheel.h."""
import re

from made.forms import in_rows, listed, markdown, read, without
from made.statuses import DESKS, KINDS, TIMERS
from made.tables import ENDS, TABLES, table_of_tables

# Those with a list; and wheel.h, of which lists are made.
FILES = """
README.md extension/_timers.c extension/common.h extension/wheel.h src/timers/__init__.py src/timers/_timers.pyi
src/timers/desk.py tests/desk_test.py tests/timers_test.py
""".split()
NAMES_OF_TIMERS = {**TABLES, **ENDS, **TIMERS}
NAMES_OF_DESKS = {**TABLES, **DESKS, **KINDS}
OF_PYTHON = {"action": "_T", "handle": "Handle | None", "run": "Callable[[int, int, _T], object] | None"}


def methods_in_python():
    """The methods of Python's Timers in the extension: name, result and signature, and lines of C with the docstring."""
    form = r'^\t\{ "(\w+)", .*, /\* -> (.*) \*/\n\t  "\1\(\$(.*)\)\\n--\\n\\n"\n((?:\t  ".*\n)+)'
    return re.findall(form, read("bindings/python/extension/wheel.h"), re.MULTILINE)


def rows_of_python():
    """The methods, and the first paragraph of each docstring."""
    for name, _, signature, lines in methods_in_python():
        text = "".join(re.findall(r'"(.*)"', lines)).partition(r"\n\n")[0].replace(r"\n", " ")
        given = [word for word in re.findall("[^ ,]+", signature)[1:] if word != "/"]
        yield [f"`{name}({', '.join(given)})`", text]


def hints_of_calls():
    """The methods, with hints. Other parameters are numbers."""
    def hint(found):
        return f", {found[1]}: {OF_PYTHON.get(found[1], 'SupportsIndex')}{' = ' * bool(found[2])}"

    for name, result, signature, _ in methods_in_python():
        hinted = re.sub(r", (\w+)(=?)", hint, signature)
        yield f"    def {name}({'self' if hinted == 'self, /' else hinted}) -> {result}: ..."
    yield ""


LISTS = {
    "statuses of timers in Python": lambda: in_rows("\t", listed("OF_TIMERS({name})", TIMERS)),
    "statuses of desks in Python": lambda: in_rows("\t", listed("OF_DESK({name})", without(DESKS, TIMERS))),
    "tables and kinds of words in Python": lambda: [
        *in_rows("\t", listed("OF_TIMERS({name})", {**TABLES, **ENDS})), *in_rows("\t", listed("OF_WORD({name})", KINDS))],
    "hints of timers": lambda: listed("{name}: Final[int]", NAMES_OF_TIMERS),
    "hints of desks": lambda: listed("{name}: Final[int]", without({**DESKS, **KINDS}, TIMERS)),
    "names of timers": lambda: in_rows("    ", listed("{name}", NAMES_OF_TIMERS)),
    "quoted names of timers": lambda: in_rows("    ", listed('"{name}"', NAMES_OF_TIMERS)),
    "names of desks": lambda: in_rows("    ", listed("{name}", NAMES_OF_DESKS)),
    "quoted names of desks": lambda: in_rows("    ", listed('"{name}"', NAMES_OF_DESKS)),
    "rows of tables": lambda: table_of_tables(str),
    "last ticks of tables in Python": lambda: in_rows(" " * 8, listed("module.{end}", TABLES)),
    "tables of desks in Python": lambda: in_rows(" " * 4, listed("td.{name}", TABLES)),
    "hints of calls": hints_of_calls,
    "table of calls in Python": lambda: markdown(["Call", "What it does"], rows_of_python()),
}
