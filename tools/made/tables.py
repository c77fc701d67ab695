"""Tables of wheels, as C and the wrappers name and describe them: facts/tables.toml."""
from formats import LIMITS, TABLES as ALL_TABLES
from made.forms import enumerators, markdown, wrapped

# The tables that C and the wrappers name.
TABLES = {name: fact for name, fact in ALL_TABLES.items() if "only" not in fact}


def size(count):
    """A number of bytes in words: 15 KB, 2.7 KB."""
    return f"{count / 1000:.{count < 5000:d}f} KB"


def what_is(table, form):
    """What the wheels of a table are, where other tables have names of this form."""
    return table["is"].format(**{name: form(name) for name in TABLES})


def in_code(name):
    return f"`{name.capitalize()}`"


for at, fact in enumerate(TABLES.values()):
    fact["number"] = at
    fact["end"] = "_".join(reversed(fact["last"].split("_OF_")))  # as C and Python name its last tick
    ends = f": the last tick is TIMERS_{fact['end']}" * ("ends" in fact)
    fact["means"] = f"{what_is(fact, 'TIMERS_{}'.format)}{ends}; {' + '.join(map(size, fact['bytes'])).replace(' KB +', ' +')}"
# By the names of last ticks, the tables that say what they are.
ENDS = {fact["end"]: fact for fact in TABLES.values() if "ends" in fact}


def last_ticks():
    """The last ticks, and which is that of a table."""
    for end, table in ENDS.items():
        front = f"#define TIMERS_{end} UINT64_C({LIMITS[table['last']]})"
        yield f"{front:50}  /* {table['ends']} */"
    first, *others = ENDS
    ends = {name: table["end"] for name, table in TABLES.items() if table["end"] in others}
    choice = " : ".join(f"(table)\0==\0TIMERS_{name}\0?\0TIMERS_{end}" for name, end in ends.items())
    yield " \\\n\t".join(["#define TIMERS_LAST_OF(table)", *wrapped(f"({choice} : TIMERS_{first})", 108)])
    yield f"{f'#define TIMERS_TABLES {len(TABLES)}':50}  /* how many tables there are: their numbers are less than this */"


def purposes():
    """What tables are for, in a comment of C."""
    for name, table in TABLES.items():
        yield from wrapped(table["for"], 90, f" *         {f'TIMERS_{name}':13}  ", f" *{' ' * 24}")


def table_of_tables(form):
    """What a README says of the tables."""
    rows = ([f"`{form(name)}`", *map(size, table["bytes"]), ENDS[table["end"]]["ends"], table["for"]]
            for name, table in TABLES.items())
    return markdown(["Table", "Its wheels take", "The first start takes", "Its last tick", "It is for"], rows)


def tables_in_tests():
    """The rows of an array of C: radices, revolutions, and bytes."""
    for table in TABLES.values():
        numbers = ", ".join(map(str, [table.get("revolutions", 1), *table["bytes"]]))
        yield f"\t{{ {{ {', '.join(map(str, table['radices']))} }}, {numbers} }},"


LISTS = {
    "tables": lambda: enumerators("TIMERS_", TABLES),
    "last ticks": last_ticks,
    "what tables are for": purposes,
    "tables in tests": tables_in_tests,
}
