"""Statuses and kinds of words: facts/statuses.toml."""
from formats import facts
from made.forms import capital, comment, enumerators, listed

STATUSES = facts("statuses")
TIMERS, DESKS, KINDS = STATUSES["timers"], STATUSES["timers_desk"], STATUSES["timers_word"]


def constants(statuses):
    """Constants of Rattle."""
    for name, fact in statuses.items():
        yield from (*comment("", f"{capital(fact['means'])}.", 110), f"pub const {name}: u32 = {fact['number']};", "")


LISTS = {
    "statuses of timers": lambda: enumerators("TIMERS_", TIMERS),
    "statuses of desks": lambda: enumerators("TIMERS_DESK_", DESKS),
    "kinds of words": lambda: enumerators("TIMERS_WORD_", KINDS),
    "texts of timers": lambda: listed('\tcase TIMERS_{name}: return "{text}";', TIMERS),
    "texts of desks": lambda: listed('\tcase TIMERS_DESK_{name}: return "{text}";', DESKS),
    "constants of timers": lambda: constants(TIMERS),
    "constants of desks": lambda: constants(DESKS),
    "constants of words": lambda: constants(KINDS),
}
