"""Schemes, in the code and specifications of the program, its help and docs/formats.md: facts/schemes.toml."""
import json

from formats import LASTS, SCHEMES, named
from made.forms import capital, comment, markdown, wrapped
from made.wheels import OF_CRATES, OF_TIERS, defined, imported, names

# Those whose timers move from wheel to wheel.
MOVING = ", ".join(f"`{name}`" for name, scheme in SCHEMES.items() if scheme.get("table") in OF_CRATES)
# What texts of options say of schemes, by the names that stand for it there.
IN_SCHEMES = {
    "schemes": " ".join(f"`{name}` is {scheme.get('is', 'Scheme ' + str(scheme['paper']))}." for name, scheme in SCHEMES.items()),
    "moving": " and ".join(MOVING.rsplit(", ", 1)),
    "lasts": ", ".join(f"{{{last}}} with `{name}`" for name, last in LASTS.items() if last != "LAST"),
}


def schemes_in_help():
    """The schemes, and beside each how it keeps timers, in 87 columns."""
    for name, scheme in SCHEMES.items():
        yield from wrapped(named(scheme["keeps"]), 87, f"  {name:8}", " " * 10)
    yield ""


def variants():
    """The schemes as variants of an enum of Rattle."""
    for name, scheme in SCHEMES.items():
        yield from comment(" " * 4, f"{capital(named(scheme['keeps']))}.")
        yield f"    {name.capitalize()},"


def last_ticks():
    """The last ticks as arms of a match, each for the schemes that have it."""
    for last in dict.fromkeys(LASTS.values()):
        yield f"            {' | '.join(f'Scheme::{name.capitalize()}' for name, other in LASTS.items() if other == last)} => {last},"


def definitions():
    layouts = {1: "NoSlots", 6: "OneWheel slots", 7: "{layout} table.{of}"}
    rows = {}
    for name, scheme in SCHEMES.items():
        layout = layouts[scheme["paper"]].format(**{**OF_TIERS, **OF_CRATES}.get(scheme.get("table"), {}))
        rows[name] = {"Name": name.capitalize(), "name": name, "last": LASTS[name], "layout": layout}
    yield f"use Rattle.timer_wheels.specs.declared.table.TheConstants.{{{', '.join(sorted({*LASTS.values()} - {'LAST'}))}}}"
    yield from (f"use Rattle.timer_commands.specs.declared.options.Scheme.TheVariants.{{{names('{Name}', rows)}}}", "")
    yield from defined("the name of a scheme among the arguments", "name_of : Scheme → List ℕ", '{Name} = codes "{name}"', rows)
    yield from defined("how the slots of a scheme's wheel are laid out, where the options give this number of them for the hashed one",
                       "scheme_layout : Scheme → ℕ → Layout", "{Name} slots = {layout}", rows)
    yield from defined("the last tick of a scheme's clock", "scheme_last : Scheme → ℕ", "{Name} = {last}", rows)


LISTS = {
    "names of schemes": lambda: [f"static SCHEME_NAMES: [&str; {len(SCHEMES)}] = {json.dumps(list(SCHEMES))};", ""],
    "schemes": lambda: (f'        "{name}" => Some(Scheme::{name.capitalize()}),' for name in SCHEMES),
    "variants of schemes": variants,
    "last ticks of schemes": last_ticks,
    "imports of last ticks": lambda: imported("use timer_wheels", {*LASTS.values(), "MAX_SLOTS"}),
    "definitions of schemes": definitions,
    "all schemes": lambda: [
        f"static SCHEMES: [Scheme; {len(SCHEMES)}] = [", *(f"    Scheme::{name.capitalize()}," for name in SCHEMES), "];", ""],
    "schemes in the help": schemes_in_help,
    "lines of show in the help": lambda: [
        f"  {name:8}{scheme['example']:29}{scheme.get('brief', '')}".rstrip() for name, scheme in SCHEMES.items()],
    "lines of show": lambda: markdown(
        ["Scheme", "Line", "Meaning"], ([f"`{name}`", scheme["line"], scheme["means"]] for name, scheme in SCHEMES.items())),
}
