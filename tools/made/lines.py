"""How lines of a script and of a stream are read: readers in Rattle, what they compute, and the proof that this is right:
facts/words.toml.

All readers have one form. A field `count` is read by `read_tick_count`, which computes `tick_count_at`. Its lemmas are
`tick_count_again`, `tick_count_then` and `tick_count_fits`. Any other field has `read_field`, `field_at`, `field_again` and
`field_then`. A word's readers and lemmas are named by the word; of a stream's own lines their specifications end in `_line_at`.
"""
from formats import FIELDS, WORDS


class Line:
    """A line. Of each field: its name, what its readers are called by, and the byte that ends it."""

    def __init__(self, word, section="script"):
        self.word = word
        self.name = word.replace("-", "_")
        self.read_at = f"{self.name}_at" if section == "script" else f"{self.name}_line_at"
        self.names = FIELDS[word]
        ends = [" "] * (len(self.names) - 1) + ["\\n"]
        self.fields = [(name, "tick_count" if name == "count" else "field", end) for name, end in zip(self.names, ends)]
        self.front = f"{word} " if self.fields else f"{word}\\n"
        self.event = WORDS[section][word].get("event", word.capitalize())

        # In specifications and proofs: the event of its fields, and the range of each in a premise that has them all.
        self.made = f"(Events.{self.event} {' '.join(self.names)})" if self.names else f"Events.{self.event}"
        self.ranges = [f"fits.{at}" for at in range(len(self.names))] if len(self.names) > 1 else ["fits"]


CALLS = [Line(word) for word in WORDS["reading"]["by_calls"]]
IN_PLACE = [Line(word) for word in WORDS["reading"]["in_place"]]
LINES = [Line(word) for word in WORDS["script"]]
OWN = [Line(word, "stream") for word in WORDS["stream"]]

# A search through more tests than three is too long for the prover.
OWN_FIRST, OWN_OTHER = OWN[:3], OWN[3:]


def code(byte):
    """The number of a byte that ends a field."""
    return {" ": 32, "\\n": 10}[byte]


def made_event(line):
    """The statement that makes the event of its fields, as `rt fmt` lays it out."""
    names = ", ".join(line.names)
    if len(names) > 18:
        yield from (f"    let event = Event::{line.event} {{", *(f"        {name}," for name in line.names), "    };")
    else:
        yield f"    let event = Event::{line.event}{f' {{ {names} }}' if names else ''};"


def reader(line):
    inlined = "always" if line.word in WORDS["reading"]["in_place"] else "never"
    yield f"/// The event of a line, from what follows `{line.front}`."
    yield f"#[inline({inlined})]"
    yield f"#[tactic(auto, unfolding(crate::specs::Lines::{line.read_at}))]"
    yield f"fn read_{line.name}(bytes: &[u8]) -> Option<(Event, &[u8])>"
    yield f"    ensures {{ read_view (λ e. e) result ≡ {line.read_at} bytes.now }}"
    yield "{"
    rest = "bytes"
    for name, kind, end in line.fields:
        yield f"    let ({name}, rest) = read_{kind}({rest}, b'{end}')?;"
        rest = "rest"
    yield from made_event(line)
    yield f"    Some((event, {rest}))"
    yield "}"
    yield ""


def tests(lines, has="has_word"):
    """A test for each word, and the call of its reader."""
    for line in lines:
        yield f"    if {has}(bytes, b\"{line.front}\") {{"
        yield f"        return read_{line.name}(&bytes[{len(line.word) + 1}..]);"
        yield "    }"


def specification(line):
    yield f"-- what follows `{line.front}`"
    yield f"unfoldable pub {line.read_at} : List ℕ → Read Event"
    yield f"{line.read_at} bytes ="
    rest = "bytes"
    for name, kind, end in line.fields:
        yield f"    {kind}_at {code(end)} {rest} >>= λ {name}."
        rest = f"{name}.1"
    yield f"    Some ({' '.join([f'Events.{line.event}', *(f'{name}.0' for name in line.names)])}, {rest})"
    yield ""


def choice(lines, otherwise):
    """What the first of the words that is at the front leads to."""
    for at, line in enumerate(lines):
        last = f" {otherwise}{')' * at}" if line is lines[-1] else ""
        yield f"    {'(' * (at > 0)}or_try (strip (codes \"{line.front}\") bytes) {line.read_at}{last}"


def specifications():
    for line in LINES:
        yield from specification(line)
    yield from ("-- the event of another line", "unfoldable pub other_at : List ℕ → Read Event", "other_at bytes =")
    yield from choice(CALLS, "None")
    yield ""
    yield from ("-- the event whose line is at the front", "unfoldable pub line_at : List ℕ → Read Event", "line_at bytes =")
    yield from choice(IN_PLACE, "(other_at bytes)")
    yield ""


def own_specifications():
    for line in OWN:
        yield from specification(line)
    yield from ("-- the event of another line of a stream alone", "unfoldable pub other_own_at : List ℕ → Read Event", "other_own_at bytes =")
    yield from choice(OWN_OTHER, "None")
    yield ""
    yield from ("-- the event of a line of a stream alone", "unfoldable pub own_line_at : List ℕ → Read Event", "own_line_at bytes =")
    yield from choice(OWN_FIRST, "(other_own_at bytes)")
    yield ""


def again(line, lemma="line_again"):
    """The line of an event is read as that event."""
    front = f"{lemma} {line.made} rest fits ="
    steps = [f"{kind}_again {code(end)} {name} _ {fits} (lit≤ tt)" for (name, kind, end), fits in zip(line.fields, line.ranges)]
    if len(steps) > 1:
        yield from (f"{front} simp append_assoc (rw (", *(f"  {step}," for step in steps), ") refl)")
    else:
        yield f"{front} simp append_assoc (rw ({steps[0]}) refl)" if steps else f"{front} refl"


def sound(line, fit="AreFieldsInRange"):
    """What a reader reads is the line of the event that it returns."""
    numbers = range(1, len(line.fields) + 1)
    fits, parts = (", ".join(f"{name}{at}" for at in numbers) for name in ("fits", "is"))
    last = len(line.fields) or ""
    yield f"{line.name}_sound : (bytes rest : List ℕ) (event : Event) → {line.read_at} bytes ≡ Some (event, rest)"
    yield f"    → {fit.strip('()')} event × (codes \"{line.front}\" ++ bytes ≡ line event ++ rest)"
    yield f"unfolding {line.read_at} line"
    yield f"{line.name}_sound bytes rest event e ="
    for at, (name, kind, end) in zip(numbers, line.fields):
        rest = f"r{at - 1}" if at > 1 else "bytes"
        yield f"    {kind}_then {code(end)} {rest} _ _ e{at - 1 or ''} λ {name} r{at} fits{at} is{at} e{at}."
    rest = f"r{last}" if line.fields else "bytes"
    yield f"    same_line {fit} (codes \"{line.front}\") bytes rest {rest} event {line.made} e{last} {f'({fits})' if fits else 'tt'}"
    yield f"    {f'(rw ({parts}) (simp append_assoc))' if parts else 'refl'}"
    yield ""


def fed(line, lemma="line_fed"):
    """The only line feed of a line is its last byte."""
    numbers = "".join(f"{name} ∷ " for name in line.names) + "[]"
    fits = [f"tick_count_fits {fit}" if kind == "tick_count" else fit for (_, kind, _), fit in zip(line.fields, line.ranges)]
    all_fit = "".join(f"({fit}, " for fit in fits) + "tt" + ")" * len(fits)
    yield f"{lemma} {line.made} fits ="
    yield f"    fed (codes \"{line.word}\") ({numbers}) (line {line.made}) (search rules) (lit≤ tt)"
    yield f"    {all_fit} {'(simp append_assoc refl)' if fits else 'refl'}"


def lemmas():
    yield "-- the line of an event is read as that event"
    yield "pub line_again : (event : Event) (rest : List ℕ) → AreFieldsInRange event"
    yield "    → line_at (line event ++ rest) ≡ Some (event, rest)"
    yield f"unfolding line_at other_at {' '.join(f'{line.word}_at' for line in LINES)} line has_word"
    for line in LINES:
        yield from again(line)
    for line in OWN:
        yield f"line_again {line.made} rest fits = absurd fits"
    yield ""
    for line in LINES:
        yield from sound(line)
    yield "-- what is read is the line of that event"
    yield "pub line_sound : (bytes rest : List ℕ) (event : Event) → line_at bytes ≡ Some (event, rest)"
    yield "    → AreFieldsInRange event × (bytes ≡ line event ++ rest)"
    yield "unfolding line_at other_at"
    yield "line_sound bytes rest event e ="
    for at, line in enumerate(IN_PLACE + CALLS, start=1):
        yield by_word(at, line, "AreFieldsInRange")
    yield f"    absurd (none-some _ e{len(LINES)})"
    yield ""
    yield "-- where the line of an event ends"
    yield "pub line_fed : (event : Event) → AreFieldsInRange event → IsFed (line event)"
    yield "unfolding line"
    for line in LINES:
        yield from fed(line)
    for line in OWN:
        yield f"line_fed {line.made} fits = absurd fits"
    yield ""


def by_word(at, line, fit):
    """If the line begins with this word, its reader reads it; `at` counts the words."""
    return (f"    by_word {fit} (codes \"{line.front}\") bytes rest event {line.read_at} _ e{at - 1 or ''}"
            f" (λ s. {line.name}_sound s rest event) λ e{at}.")


def own_lemmas():
    own, all_read = " ".join(line.read_at for line in OWN), " ".join(line.read_at for line in LINES)
    yield "-- the line of an event is read as that event"
    yield "pub stream_again : (event : Event) (rest : List ℕ) → IsIn Stream event"
    yield "    → stream_at (line event ++ rest) ≡ Some (event, rest)"
    yield f"unfolding stream_at line_at other_at own_line_at other_own_at {all_read} {own} line has_word"
    for line in OWN:
        yield from again(line, "stream_again")
    for line in LINES:
        yield f"stream_again {line.made} rest fits = rw (line_again {line.made} rest fits) refl"
    yield ""
    for line in OWN:
        yield from sound(line, "(IsIn Stream)")
    yield "-- what is read of a line of a stream alone is the line of that event"
    yield "own_sound : (bytes rest : List ℕ) (event : Event) → own_line_at bytes ≡ Some (event, rest)"
    yield "    → IsIn Stream event × (bytes ≡ line event ++ rest)"
    yield "unfolding own_line_at other_own_at"
    yield "own_sound bytes rest event e ="
    for at, line in enumerate(OWN, start=1):
        yield by_word(at, line, "(IsIn Stream)")
    yield f"    absurd (none-some _ e{len(OWN)})"
    yield ""
    yield "-- where the line of an event ends"
    yield "pub stream_fed : (event : Event) → IsIn Stream event → IsFed (line event)"
    yield "unfolding line"
    for line in OWN:
        yield from fed(line, "stream_fed")
    for line in LINES:
        yield f"stream_fed {line.made} fits = line_fed {line.made} fits"
    yield ""


def imports(use, end=""):
    yield f"{use} Rattle.timer_script.specs.Lines.{{{', '.join(line.read_at for line in LINES + OWN)}}}{end}"


LISTS = {
    "imports of readers": lambda: imports("ghost use", ";"),
    "readers of lines": lambda: (row for line in LINES + OWN for row in reader(line)),
    "words of a stream": lambda: tests(OWN_FIRST, "has_short_word"),
    "other words of a stream": lambda: tests(OWN_OTHER, "has_short_word"),
    "words that are read in place": lambda: tests(IN_PLACE),
    "words that are read by calls": lambda: tests(CALLS),
    "what readers compute": specifications,
    "what readers of a stream compute": own_specifications,
    "lemmas of lines of a stream": own_lemmas,
    "imports of what readers compute": lambda: imports("use"),
    "lemmas of lines": lemmas,
}
