"""What tools/facts makes here of facts/ and of the headers."""
import re

from formats import LIMITS
from made.calls import calls
from made.forms import capital, comment, listed, without
from made.statuses import DESKS, KINDS, TIMERS
from made.tables import ENDS, TABLES, in_code, size, table_of_tables, what_is

FILES = "README.md src/desk.rs src/error.rs src/ffi.rs src/table.rs tests/edges.rs tests/replay.rs".split()
PLACES = {"src/desk.rs": ["const CLIENTS: usize = {MAX_CLIENTS};"]}
OF_RUST = {"void": "", "bool": "bool", "uint64_t": "u64", "uint32_t": "u32", "size_t": "usize", "enum timers_status": "c_uint",
           "enum timers_desk_status": "c_uint", "enum timers_line_status": "c_uint", "struct timers_handle": "Handle",
           "struct timers": "Held", "struct timers_expired": "Expired", "struct timers_counters": "Counts",
           "struct timers_desk": "RawDesk", "struct timers_line": "RawLine", "struct timers_word": "RawWord",
           "struct timers_desk_config": "RawConfig"}


def in_rust(header, visible):
    """The functions of a header, as Rust declares them. What has a pointer to a function or a text is left to the crate."""
    def parameter(text):
        of, pointer, name = re.fullmatch(r"([\w ]+?) ?(\*?)(\w+)", text).groups()
        kind = OF_RUST[of.removeprefix("const ")]
        return f"{name}: {('*const ' if of.startswith('const ') else '*mut ') if pointer else ''}{kind}"

    for of, name, parameters in calls(header):
        if of in OF_RUST and not any("(" in text for text in parameters) and parameters != ["void"]:
            front = f"    {visible}fn {name}({', '.join(map(parameter, parameters))})"
            yield f"{front}{f' -> {OF_RUST[of]}' if OF_RUST[of] else ''};"


def errors(statuses):
    """Rows of `errors!` of Rust, for each status that is an error there."""
    for name, fact in statuses.items():
        error, means = "".join(map(str.capitalize, name.split("_"))), fact.get("rust", True)
        if means is not False:
            yield f'    {fact["number"]} {error} "{fact["text"]}"' + "," * (means is True)
        if isinstance(means, str):
            yield f'        "{means}",'


def variants():
    """The tables as variants of an enum of Rust. The first is the default."""
    for name, table in TABLES.items():
        said = [f"{capital(what_is(table, in_code))}. They take some {size(table['bytes'][0])}, and are for {table['for']}.",
                table.get("more", ""), f"The last tick is [`{table['last']}`]."]
        yield from comment(" " * 4, " ".join(filter(None, said)))
        yield from ["    #[default]"] * (table["number"] == 0)
        yield f"    {name.capitalize()} = {table['number']},"


def last_ticks_in_rust():
    for end, table in ENDS.items():
        of = " and ".join(f"[`Table::{name.capitalize()}`]" for name, other in TABLES.items() if other["end"] == end)
        yield from (f"/// The last tick of {of}: {table['ends']}.", f"pub const {table['last']}: Tick = Tick({LIMITS[table['last']]:_});")
    yield ""


LISTS = {
    "errors of timers": lambda: errors(TIMERS),
    "errors of desks": lambda: errors(DESKS),
    "kinds in Rust": lambda: listed("const {name}: c_uint = {number};", without(KINDS, ["NOT_TAKEN"])),
    "rows of tables in Rust": lambda: table_of_tables(str.capitalize),
    "tables in tests of Rust": lambda: [f"    (Table::{name.capitalize()}, timers::{table['last']})," for name, table in TABLES.items()],
    "tables in Rust": variants,
    "last ticks in Rust": last_ticks_in_rust,
    "calls": lambda: in_rust("timers.h", "pub(crate) "),
    "calls of a desk": lambda: in_rust("timers_desk.h", ""),
}
