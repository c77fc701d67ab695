"""Options of the program and how it ends, in its code, its help and docs/formats.md: facts/options.toml."""
import re

from formats import OPTIONS, named
from made.forms import capital, comment, listed, markdown, wrapped
from made.schemes import IN_SCHEMES

# The endings of the program, by the names of the enum's variants: SYSTEM is none of its own.
ENDINGS = {"".join(map(str.capitalize, name.split("_"))): end for name, end in OPTIONS["exit"].items() if name != "SYSTEM"}


def variants_of_endings():
    """The endings as variants of an enum of Rattle."""
    for name, end in ENDINGS.items():
        yield from comment(" " * 4, named(f"{capital(end['when'])}."))
        yield f"    {name},"


def with_schemes(text):
    """A text of an option, with what facts/schemes.toml says in the place of its names there."""
    for name, told in IN_SCHEMES.items():
        text = text.replace(f"{{{name}}}", told)
    return text


def range_of(option):
    return f"{option['range'][0]} to {option.get('most', option['range'][1])}" if "range" in option else ""


def table_of(command):
    """What a table says of options. One that takes no value has no range and no default."""
    has_values = any("default" in option for option in OPTIONS[command].values())
    rows = []
    for name, option in OPTIONS[command].items():
        text = with_schemes(". ".join([option["text"].replace("{range}", ""), *filter(None, [option.get("more")])]))
        default = option.get("default", "")
        values = [range_of(option), f"`{default}`" if default.isalpha() else default]
        rows.append([f"`--{name}`", text[0].lower() + text[1:], *values * has_values])
    return markdown(["Option", "Sets", "Range", "Default"] if has_values else ["Option", "Does"], rows)


def texts_of(command):
    """What the help says of options, as statements of Rattle."""
    for name, option in OPTIONS[command].items():
        text = with_schemes(option["text"].replace("{range}", f", {range_of(option)}"))
        yield named(f'    let {name.replace("-", "_")} = "{text}";')


def arguments(command):
    """Options as `clap` takes them, each with its text, as `rt fmt` lays them out."""
    for name, option in OPTIONS[command].items():
        maker, words = "flag", ["alloc", f'"{name}"']
        if "value" in option:
            makers = ("number", "optional") if "range" in option else ("choice", "path")
            maker = f"of_{option['with']}" if "with" in option else makers["default" not in option]
            ends = [f"({', '.join(option['range'])})"] if "range" in option else []
            words += [f'"{option["value"]}"', *ends, *([f'"{option["default"]}"'] if "default" in option else [])]
        words = named(", ".join([*words, name.replace("-", "_")]))
        if len(words) > 60:
            words = "\n".join(["", *(f"{'':12}{word}," for word in re.split(r", (?![^(]*\))", words)), " " * 8])
        rule = f'.conflicts_with("{option["without"]}")?' if "without" in option else ""
        rule += "?" if "with" in option else ""
        yield f"        .arg({maker}({words}){rule}){'?' * (name != list(OPTIONS[command])[-1])}"


def synopsis():
    """A line for each command, with the options of `play` where they are taken. A man page shows it in 80 columns."""
    def form(name, *commands):
        options = [(option, fact.get("value")) for command in commands for option, fact in OPTIONS[command].items()]
        words = [f"[--{option}\0{value}]" if value else f"[--{option}]" for option, value in options]
        words += ["[FILE]"] * (name != "threads")
        return wrapped(f"timers {name} {' '.join(words)}", 77, " " * 4, " " * (len(name) + 12))

    yield from ("    timers", "    timers [OPTIONS] FILE")
    yield from (*form("play", "play"), *form("serve", "play", "serve"), *form("show", "play", "show"), *form("threads", "threads"))
    yield from ("    timers check [FILE]", "    timers help [COMMAND]", "    timers --help | --version")


LISTS = {
    "endings": variants_of_endings,
    "statuses of endings": lambda: listed("            Ending::{name} => {status},", ENDINGS),
    "clauses of statuses": lambda: listed("status_of endings.{name} = {status}", ENDINGS),
    "exit statuses": lambda: markdown(["Status", "When"], ([str(end["status"]), end["when"]] for end in OPTIONS["exit"].values())),
    "synopsis": synopsis,
}
for each in "play", "serve", "show", "threads":
    LISTS[f"options of {each}"] = lambda command=each: table_of(command)
    LISTS[f"texts of options of {each}"] = lambda command=each: texts_of(command)
    LISTS[f"arguments of {each}"] = lambda command=each: arguments(command)
