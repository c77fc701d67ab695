"""Tables of wheels in the crates: code, specifications, laws and lemmas have a row for each table of facts/tables.toml."""
import math
import sys

from formats import LIMITS, TABLES as ALL_TABLES
from made.forms import capital, listed
from made.tables import TABLES, in_code, what_is


def ticks(radices):
    """How many ticks a clock has: as a power of two, if it is one."""
    span = math.prod(radices)
    return f"2^{span.bit_length() - 1}" if span.bit_count() == 1 else f"{span:,}"


def code_of(name, fact):
    """Where the code of a table is: in a file of its own, or in that of equal digits, for their bits and how many they are."""
    radices = fact["radices"]
    bits = radices[0].bit_length() - 1
    if "code" in fact:
        return {"path": name, "digits": "", "term": name}
    if radices != [1 << bits] * len(radices):
        sys.exit(f"tools/facts: the table {name} needs code of its own: its radices are not the same power of two")
    return {"path": "equal", "digits": f"::<{bits}, {len(radices)}>", "term": f"equals {bits} {len(radices)}"}


def with_names(name, fact):
    """A table, with what the crates say of it. `of` is the table of crates/timer_wheels with the same radices."""
    radices, is_smooth, said = fact["radices"], "revolutions" in fact, what_is(fact, in_code)
    of = next(other for other, table in ALL_TABLES.items() if table["radices"] == radices and "revolutions" not in table)
    return fact | {
        "NAME": name, "Name": name.capitalize(), "name": name.lower(), "Is": capital(said), "said": said, "of": of.capitalize(),
        "wheel": "SmoothWheel" if is_smooth else "LazyWheel", "layout": "smooth_layout" if is_smooth else "layout_of_table",
        "list": " ∷ ".join(map(str, [*radices, "[]"])), "least": radices[0], "wheels": len(radices), "moves": len(radices) - 1,
        "slots": sum(radices), "turned": 128 * (len(radices) - 1) + 2 * radices[-1],
        "ticks": ticks(radices), "ending": LIMITS[fact["last"]], **code_of(name.lower(), fact),
    }


OF_TIERS = {name: with_names(name, fact) for name, fact in TABLES.items()}
HIERARCHIES = {name: fact for name, fact in OF_TIERS.items() if "revolutions" not in fact}
OF_CRATES = {name: with_names(name, fact) for name, fact in ALL_TABLES.items() if "revolutions" not in fact}
OWN = {name: fact for name, fact in OF_CRATES.items() if not fact["digits"]}
WITH_LAST = {name: fact for name, fact in OF_CRATES.items() if fact["last"] != "LAST"}
LIMITS["MOST_LISTS"] = max(table["turned"] for table in OF_CRATES.values())


def tabled(form, tables=OF_CRATES):
    """A line for each table of the crates, or for each of others."""
    return listed(form, tables)


def names(form, tables=OF_CRATES):
    return ", ".join(tabled(form, tables))


def own_lasts():
    """The last ticks of the tables, but for LAST, and the most buckets."""
    yield from tabled("/// The last tick of the clock of `Table::{Name}`: {ends}.\npub const {last}: u64 = {ending};\n", WITH_LAST)
    most = max(table["slots"] for table in OF_CRATES.values())
    yield from ("/// The most buckets that a table has.", f"pub const MOST_BUCKETS: usize = {most};", "")


def imported(path, names_of):
    """An import of names but for LAST, as `rt fmt` sorts them."""
    return [f"{path}::{{{', '.join(sorted(names_of - {'LAST'}))}}};"]


VARIANTS = f"use Rattle.timer_wheels.specs.declared.table.Table.TheVariants.{{{names('{Name}')}}}"
CONSTANTS = f"use Rattle.timer_wheels.specs.declared.table.TheConstants.{{{names('{last}', WITH_LAST)}}}"


def defined(said, signature, form, tables=OF_CRATES):
    """A definition by a row for each table."""
    return [f"-- {said}", f"abbrev pub {signature}", *tabled(f"{signature.split()[0]} {form}", tables), ""]


def definitions_of_tables():
    yield from (VARIANTS, CONSTANTS, "")
    yield from tabled("-- {said}\nunfoldable pub {name} : List ℕ\n{name} = {list}\n", OWN)
    yield from defined("the slots of the wheels, from the lowest up", "radices : Table → List ℕ", "{Name} = {term}")
    yield from defined("the last tick that has its digits in the table", "last_of_table : Table → ℕ", "{Name} = {last}")


def definitions_of_tiers():
    for of, form in ("Tiers.TheVariants", "{Name}"), ("TheConstants", "{NAME}"):
        yield f"use Rattle.timer_wheels.specs.declared.tiers.{of}.{{{names(form, OF_TIERS)}}}"
    yield from ("", "-- the wheels with this number, if there are any")
    yield from ("abbrev pub tiers_with_number : ℕ → Option Tiers", "tiers_with_number number =")
    yield from (*tabled("    if number == {NAME} then Some {Name} else", OF_TIERS), "    None", "")
    yield from defined("the table of their radices", "table_of_tiers : Tiers → Table", "{Name} = tables.{of}", OF_TIERS)


def lemmas():
    """What holds of each table, by a row for each of them."""
    unfolding = f"unfolding {' '.join(tabled('{name}', OWN))} equals"
    fits = ["(let h : {slots} ≤ MOST_BUCKETS = omega arith in h)", "(let h : {turned} ≤ MOST_LISTS = omega arith in h)",
            "(let h : {ending} ≤ LAST = omega arith in h)", "refl", "(let h : 16 ≤ {least} = omega arith in h)",
            "(let h : 0 < {wheels} = omega arith in h)", "(let h : {wheels} ≤ 10 = omega arith in h)"]
    yield from ("pub of_table : (table : Table) → IsHierTable (radices table)", unfolding)
    yield from tabled(f"of_table {{Name}} = fits (radices {{Name}}) refl {' '.join(fits)}")
    yield from ("", "pub last_named : (table : Table) → last_of (radices table) ≡ last_of_table table", unfolding)
    yield from tabled("last_named {Name} = refl")
    yield from ("", "pub named_last : (table : Table) (tick : ℕ) → tick ≡ last_of_table table → tick ≡ last_of (radices table)",
                "named_last table tick e = e ∙ sym (last_named table)", "")


def laws():
    """The tables in literal numbers."""
    unfolding = f"{names('crate::specs::Tables::{name}', OWN)}, crate::specs::Digits::equals"
    yield from (f"#[tactic(auto, unfolding({unfolding}))]", "pub fn the_tables_are_these()")
    for clause in ("{name} {{ radices {Name} ≡ {list} }}", "{name}_lists {{ slots (radices {Name}) ≡ {slots} }}",
                   "{name}_last {{ last_of (radices {Name}) ≡ {ending} }}", "{name}_moves {{ most_moves (radices {Name}) ≡ {moves} }}"):
        yield from tabled(f"    ensures {clause}")


def answers():
    """Goals of a match on a table, by the same answer for each of its arms."""
    for name, arm in zip(tabled("{Name}"), ["", *tabled("-in-{Name}")[1:]]):
        yield f"""pub returns-in-{name}-clause-not_before : goal.returns-in-{name}-clause-not_before
returns-in-{name}-clause-not_before g c = λ yes. quiet_by c.args.self.now c.args.end {name} c.in-{name}.is
    (c.is_clear_to{arm}.ensures.within yes) (c.is_clear_to{arm}.ensures.clear yes)
"""


LISTS = {
    "modules of tables": lambda: sorted({*tabled("pub mod {path};")}),
    "exports of tables": lambda: imported("pub use table", {*tabled("{last}"), "Table", "lowest_slots"}),
    "tables of the crates": lambda: tabled("    /// {Is}: a clock of {ticks} ticks.\n    {Name},"),
    "last ticks of the crates": own_lasts,
    "calls of tables": lambda: tabled("            Table::{Name} => crate::table::{path}::$function{digits}($($argument),*),"),
    "last ticks of tables": lambda: tabled("        Table::{Name} => {last},"),
    "constant tables": lambda: tabled("            Table::{Name} => $function(Table::{Name}, $($argument),*),"),
    "numbers of tiers": lambda: tabled("/// The number of `Tiers::{Name}`.\npub const {NAME}: u32 = {number};\n", OF_TIERS),
    "tiers": lambda: tabled("    /// A `{wheel}` of `Table::{of}`: {said}.\n    {Name},", OF_TIERS),
    "tiers with numbers": lambda: tabled("            {NAME} => Some(Tiers::{Name}),", OF_TIERS),
    "tables of tiers": lambda: tabled("            Tiers::{Name} => Table::{of},", OF_TIERS),
    "tables of hierarchies": lambda: tabled("            Tiers::{Name} => Table::{Name},", HIERARCHIES),
    "definitions of tables": definitions_of_tables,
    "definitions of tiers": definitions_of_tiers,
    "imports of laws of tables": lambda: [f"ghost {VARIANTS};", f"ghost {CONSTANTS};"],
    "laws of tables": laws,
    "last ticks in laws": lambda: tabled("    ensures {name} {{ {last} ≡ {ending} }}", WITH_LAST),
    "imports of lemmas of tables": lambda: [
        VARIANTS,
        f"use Rattle.timer_wheels.specs.Tables.{{{names('{name}', OWN)}, radices, last_of_table}}",
    ],
    "lemmas of tables": lemmas,
    "proofs of tables": lambda: tabled("pub mod {Name}Digits", OWN),
    "variants in proofs": lambda: [VARIANTS],
    "answers of quiet tables": answers,
}
