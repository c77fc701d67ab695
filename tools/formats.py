"""What facts/ and the table COSTS of timers.h say, for the tools that need it. Run, it prints a header for tools/fuzz."""
import math
import os
import re
import tomllib
from collections import ChainMap

TOP = os.path.dirname(os.path.dirname(os.path.abspath(__file__)))


def facts(name):
    with open(os.path.join(TOP, "facts", f"{name}.toml"), "rb") as file:
        return tomllib.load(file)


LIMITS, WORDS, SCHEMES, OPTIONS, TABLES = facts("limits")["limits"], facts("words"), facts("schemes"), facts("options"), facts("tables")
# The exit statuses of the program.
EXITS = {name: end["status"] for name, end in OPTIONS["exit"].items()}
NUMBERS = ChainMap(LIMITS, EXITS)
# The last tick of a table is a limit: LAST, or one of its own.
for table, fact in TABLES.items():
    last = math.prod(fact["radices"]) - 1
    fact["last"] = "LAST" if last == LIMITS["LAST"] else f"LAST_OF_{table}"
    LIMITS[fact["last"]] = last
# A limit or an exit status in a text: {NAME}, {NAME+1}, and {NAME,} or {NAME_} with that mark between thousands.
NAMED = re.compile(r"\{(\w+?)([+-]\d+)?([,_]?)\}")


def number(found):
    """A number as it is written."""
    value = NUMBERS[found[1]] + int(found[2] or 0)
    return f"{value:{found[3]}}" if found[3] else str(value)


def named(text):
    """A text in which numbers stand for their names in braces. Cases of the command line have other names, too."""
    return NAMED.sub(lambda found: number(found) if found[1] in NUMBERS else found[0], text)


def said(section, what):
    """What the facts of a section of words.toml say, in its order."""
    return [named(fact[what]) for fact in WORDS[section].values()]


def reasons():
    """Why requests and ticks are refused, by their words, without what is in brackets."""
    sections = ("not_taken", "refused", "tick_refused")
    return {word: re.sub(r" \(.*\)", "", when) for name in sections for word, when in zip(said(name, "word"), said(name, "when"))}


def fields():
    """The names of the fields of the lines of a script, of a stream and of the output, by the words with which they begin."""
    found = {}
    for line in said("script", "line") + said("stream", "line") + said("output", "line"):
        found.setdefault(line.split()[0], [name.lower() for name in re.findall(r"[A-Z]+", line)])
    return found


FIELDS = fields()


def parts(line):
    """The word with which a line begins, and its fields by their names."""
    word, *values = line.split(" ")
    return word, dict(zip(FIELDS[word], values))


# The words of refusals, by names of C.
REFUSALS = {
    re.sub(r"(?<!^)(?=[A-Z])", "_", name).upper(): fact["word"]
    for section in ("not_taken", "refused", "tick_refused") for name, fact in WORDS[section].items()
}
PLACES = {name: scheme["place"] for name, scheme in SCHEMES.items() if "place" in scheme}

# The lines on standard error, in the order of the table.
ERRORS = said("errors", "line")
OF_ANY = dict(zip(["TOO_LONG", "READ_FAILED", "WRITE_FAILED", "OUT_OF_MEMORY"], ERRORS[1:5]))
TOO_LONG, READ_FAILED, WRITE_FAILED, OUT_OF_MEMORY = (f"{line}\n".encode() for line in OF_ANY.values())


def costs():
    """What each call of timers.h takes time for, by its name without timers_."""
    with open(os.path.join(TOP, "include", "timers.h"), encoding="utf-8") as file:
        table = re.search(r"^ \* COSTS\n(.*?)^ \* WHICH TABLE\n", file.read(), re.M | re.S)[1]
    rows = re.findall(r"^ \* {9}([a-z_, ]+?)  +(\S.*)$", table, re.M)
    return {name: says for names, says in rows for name in names.split(", ")}


def strings(words):
    return ", ".join(f'"{word}"' for word in words)


def table_of(scheme):
    """The table of wheels of a scheme. Empty: it has none."""
    return TABLES.get(scheme.get("table"), {})


# By schemes: the names of their last ticks, and of hierarchies with a picture the slots of the wheels.
LASTS = {name: table_of(scheme).get("last", "LAST") for name, scheme in SCHEMES.items()}
RADICES = {name: table_of(scheme)["radices"] for name, scheme in SCHEMES.items() if {"table", "drawn"} <= set(scheme)}
# The schemes with a picture, by what addresses of the page call them.
DRAWN = {scheme["drawn"][0]: name for name, scheme in SCHEMES.items() if "drawn" in scheme}


def rows_of_tables():
    """An array of C, by schemes: radices, revolutions, and the names of the wheels."""
    for name, scheme in SCHEMES.items():
        if table := table_of(scheme):
            radices, hands = ", ".join(map(str, table["radices"])), strings(scheme.get("hands", [])) or "0"
            yield f"[{name.upper()}] = {{{{{radices}}}, {table.get('revolutions', 1)}, {{{hands}}}}}"


if __name__ == "__main__":
    for name, value in {**LIMITS, **{f"EXIT_{name}": status for name, status in EXITS.items()}}.items():
        print(f"#define {name} UINT64_C({value})")
    print("#define REASONS_OF_A_LINE", strings(said("check", "word")))
    print("#define SCHEMES_OF_THE_PROGRAM", ", ".join(map(str.upper, SCHEMES)))
    rows = (f'row("{name}", {name.upper()}, {last})' for name, last in LASTS.items())
    print("#define EACH_SCHEME(row)", " ".join(rows))
    print("#define TABLES_OF_SCHEMES", ", ".join(rows_of_tables()))
    lines = [*WORDS["script"], *WORDS["stream"]]
    forms = (f'{{"{word}", {{{", ".join([*(chr(34) + name + chr(34) for name in FIELDS[word]), "0"])}}}}}' for word in lines)
    print("#define FORMS_OF_A_LINE", ", ".join(forms))
    print("#define FORMS_OF_A_SCRIPT", len(WORDS["script"]))
    print("#define KINDS_OF_A_LINE", ", ".join(word.upper().replace("-", "_") for word in lines))
    print("#define EACH_FIELD(field)", " ".join(dict.fromkeys(f"field({name})" for word in lines for name in FIELDS[word])))
    for scheme, place in PLACES.items():
        print(f'#define {scheme.upper()}_PLACE "{re.sub("[KS]", "%d", place)}"')
    for name, text in {**REFUSALS, **OF_ANY}.items():
        print(f'#define {name} "{text}"')
