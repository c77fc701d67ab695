"""Calls: those of C, as include/ declares them."""
import re

from formats import costs
from made.forms import read

CALL = re.compile(r"^TIMERS_(?:CALL|CHECKED)\n([^;(]+?)(\w+)\(([^;]*)\);", re.MULTILINE)


def calls(header):
    """The functions that a header declares: what each returns, its name, and its parameters."""
    found = CALL.findall(read(f"include/{header}"))
    return [(of.strip(), name, re.split(r",\s*", parameters)) for of, name, parameters in found]


def exported():
    """The calls of the headers, but for those of later nodes of timers.map."""
    later = re.findall(r"^\t\t(timers_\w+);", read("tools/install/timers.map").partition("local:")[2], re.MULTILINE)
    names = [name for header in ("timers.h", "timers_desk.h") for _, name, _ in calls(header)]
    return [f"\t\t{name};" for name in sorted(names) if name not in later]


def handed(text):
    """A parameter of C, as the translated code takes it."""
    name = re.split("[ *]", text)[-1]
    return f"BYTES({name})" if "*" in text else f"{name}.place, {name}.serial" if "struct" in text else name


def passed_on(header, but):
    """Functions of a header with no pointers but their struct's and, as the last one, that to what they write: they pass numbers
    to the translated code, and its result back."""
    for of, name, parameters in calls(header):
        if name in but or "(" in parameters[0] or any("*" in text for text in parameters[1:-1]):
            continue
        front = f"{of} {name}({', '.join(parameters)})"
        kind, writes, to = (parameters[1:] or [""])[-1].partition("*")
        call = f"tm_{name}({', '.join(handed(text) for text in parameters if text != 'void')})"
        cast = "" if of in ("bool", "uint64_t", "uint32_t") else "STATUS " if "desk" in of else f"({of})"
        if not writes:
            yield f"{front} {{ {call}; }}" if of == "void" else f"{front} {{ return {cast}{call}; }}"
            continue
        yield from (front if len(front) <= 120 else front.replace(f", {parameters[-1]}", f",\n    {parameters[-1]}"), "{")
        if header == "timers.h":
            answered = "taken" if of == "bool" else "answered"
            yield from (f"\t{kind}made;", f"\treturn {answered}({call.replace(f'({to})', '(&made)')}, {to}, &made, sizeof made / 8);", "}")
        else:
            yield from (f"\treturn desk_answered({call}, {to});", "}")
    yield ""


def reads(form, writing=None):
    """The functions of timers.h that read a struct, and write to no more than one object. `writing` is the form of those that do."""
    for _, name, (struct, *objects) in calls("timers.h"):
        if struct == "const struct timers *t" and (not objects or len(objects) == 1 and "*" in objects[0]):
            yield (writing if writing and objects else form).format(
                name=name.removeprefix("timers_"), unwanted=", NULL" * len(objects), of="".join(objects).partition(" *")[0])


def costs_of_reads():
    """Reads as calls that are counted. They walk what waits, if their time grows with it. If it has two cases, they are by hand."""
    for line in reads("{name}, sum += timers_{name}(&t{unwanted}));"):
        says = costs()[line.partition(",")[0]]
        if ", or " not in says:
            name, call = line.split(", ", 1)
            yield f"\tCOST({line}" if says.startswith("constant") else f"\tWALK({name}, waiting(), {call}"


LISTS = {
    "exported calls": exported,
    "calls that pass numbers on": lambda: passed_on("timers.h", but=["timers_new", "timers_free", "timers_start", "timers_start_at",
                                                                     "timers_restart", "timers_restart_at", "timers_look"]),
    "calls of desks that pass numbers on": lambda: passed_on("timers_desk.h", but=["timers_line_receive"]),
    "reads": lambda: reads("static void make_{name}(void) {{ READ({name}); }}",
                           "static void make_{name}(void) {{ READ_OBJECT({name}, {of}); }}"),
    "steps of reads": lambda: reads("\t{{ make_{name}, 4, false }},"),
    "costs of reads": costs_of_reads,
}
