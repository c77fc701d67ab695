"""Words of the formats: lines, reasons and errors, in the crates, the help and docs/formats.md: facts/words.toml."""
from formats import FIELDS, LIMITS, WORDS, named
from made.forms import markdown, wrapped


def rows_of(section, *columns):
    """The facts of a section, with the words of the formats between backquotes."""
    for fact in WORDS[section].values():
        yield [f"`{fact[name]}`" if name in ("word", "line", "example") else fact[name] for name in columns]


def arms(indent, variants, section, quote):
    """The words of an enum's variants, as arms of a match of Rattle."""
    for name, fact in WORDS[section].items():
        pattern = f"{variants}::{name}" + " { .. }" * fact.get("carries", False)
        yield f"{indent}{pattern} => {quote}{named(fact['word'])}\","


def lines_in_help(section):
    """The lines of a script or of a stream alone, and beside each what it does, in 87 columns."""
    for fact in WORDS[section].values():
        front = f"  {fact['line']}"
        if len(front) > 37:
            yield front
            front = ""
        yield from wrapped(named(fact["help"]), 87, f"{front:39}", " " * 39)


def constant(word):
    """The name of the constant of a word."""
    return word.upper().replace("-", "_")


def words_of_lines(words):
    return (f"        b\"{word}\" => Some(&{constant(word)})," for word in words)


def fields_of_lines():
    """The fields of the lines of a script and of a stream, as `rt fmt` lays out arrays."""
    for word in [*WORDS["script"], *WORDS["stream"]]:
        fields = [f"Field::{name.capitalize()}" for name in FIELDS[word]]
        front = f"static {constant(word)}: [Field; {len(fields)}] = ["
        whole, parts = f"{front}{', '.join(fields)}];", [front, *(f"    {name}," for name in fields), "];"]
        yield from (f"/// The fields of `{word}`.", *([whole] if len(whole) <= 100 else parts), "")


def known_words(section):
    """The length of what a line shares with a word, of the word that shares the most."""
    for at, word in enumerate(WORDS[section]):
        yield f"    common_len(line, b\"{word}\")" if at == 0 else f"        .max(common_len(line, b\"{word}\"))"


def errors_of_fields(section):
    """Lines that end with an error, of each kind in each field of a line of a section, and what `check` would say of each."""
    for word in WORDS[section]:
        for at, field in enumerate(FIELDS[word]):
            most, zero, below, above = LIMITS["LAST"], "00", "LeadingZero", "OutOfRange"
            if field == "count":
                most, zero, below, above = LIMITS["MAX_TICKS"], "0", "OutOfTicks", "OutOfTicks"
            for text, reason in ("x", "NotANumber"), ("", "MissingField"), (zero, below), (f"{most + 1}", above):
                line = f"{word} {'1 ' * at}{text}"
                yield line, f"column {len(line) + (not text)}: {field}: {{{reason}}}"


LISTS = {
    "words of lines": lambda: words_of_lines(WORDS["script"]),
    "words of lines by tick": lambda: words_of_lines([word for word in WORDS["stream"] if FIELDS[word]]),
    "known words": lambda: known_words("script"),
    "known words of a stream": lambda: known_words("stream"),
    "fields of lines": fields_of_lines,
    "lines with errors of fields": lambda: (line for line, _ in errors_of_fields("script")),
    "errors of fields": lambda: (f"line {number}, {said}" for number, (_, said) in enumerate(errors_of_fields("script"), start=1)),
    "lines of a stream with errors of fields": lambda: (line for line, _ in errors_of_fields("stream")),
    "errors of fields of a stream": lambda: (
        f"bad line {number}, {said}" for number, (_, said) in enumerate(errors_of_fields("stream"), start=1)),
    "words of check": lambda: arms(" " * 12, "LineReason", "check", '"'),
    "words of refusals": lambda: arms(" " * 8, "Reason", "refused", 'b"'),
    "words of requests that are not taken": lambda: arms(" " * 8, "NotTaken", "not_taken", 'b"'),
    "words of refused ticks": lambda: arms(" " * 8, "TickFault", "tick_refused", 'b"'),
    "reasons of requests that are not taken": lambda: markdown(
        ["Reason", "The request was not taken: it used up no number, and nothing changed"], rows_of("not_taken", "word", "when")),
    "reasons of requests that are taken": lambda: markdown(
        ["Reason", "The request was taken and used up its number; nothing else changed"],
        ([f"`{fact['word']}`", f"{fact['of']}: {fact['when']}"] for fact in WORDS["refused"].values())),
    "reasons of check": lambda: markdown(["Reason", "What is at the column"], rows_of("check", "word", "means")),
    "lines in the help": lambda: lines_in_help("script"),
    "lines of a stream in the help": lambda: lines_in_help("stream"),
    "lines of a script": lambda: markdown(["Line", "Meaning", "Example"], rows_of("script", "line", "means", "example")),
    "lines of a stream alone": lambda: markdown(["Line", "Meaning", "Example"], rows_of("stream", "line", "means", "example")),
    "lines of the output": lambda: markdown(["Line", "When", "Example"], rows_of("output", "line", "when", "example")),
    "errors": lambda: markdown(["Line", "When"], rows_of("errors", "line", "when")),
}
