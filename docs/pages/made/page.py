"""The page that plays one script or several: docs/pages/wheels.html with its style, its code and the scripts."""
import json
import os
import re

from formats import DRAWN, FIELDS, LASTS, LIMITS, RADICES, SCHEMES, WORDS, reasons

HANDS = SCHEMES["clock"]["hands"]
PAGES = os.path.dirname(os.path.dirname(os.path.abspath(__file__)))


def read(name):
    with open(os.path.join(PAGES, name), encoding="utf-8") as file:
        return file.read()


def lesson(script, name):
    """What the page's code reads. The script is a text of which each character is a byte."""
    return {
        "name": name,
        "title": script.title,
        "path": script.path,
        "options": script.options,
        "isWhole": script.is_whole,
        "script": script.text.decode("latin-1"),
    }


def data(scripts):
    """The file lessons.js: scripts, of which the first is shown at first, and what facts/ says."""
    names = [os.path.basename(script.path) for script in scripts]
    numbered = [f"{name}-{at}" if names.count(name) > 1 else name for at, name in enumerate(names, 1)]
    rows = [json.dumps(lesson(*pair), ensure_ascii=True, separators=(",", ":")) for pair in zip(scripts, numbered)]
    told = {"REASONS": reasons(), "FIELDS": FIELDS, "GLOSSARY": WORDS["glossary"], "RADICES": RADICES, "HANDS": HANDS}
    told["SCHEMES"] = DRAWN
    told["LASTS"] = {name: str(LIMITS[last]) for name, last in LASTS.items()}
    told["CHOICES"] = dict(SCHEMES[name]["drawn"] for name in DRAWN.values())
    words = "".join(f"const {name} = {json.dumps(value)};\n" for name, value in told.items())
    # Within a script element the text may not end it, nor open a comment.
    return "const LESSONS = [\n" + ",\n".join(rows).replace("<", "\\u003c") + "\n];\n" + words


def page(scripts):
    """docs/pages/wheels.html with all that it loads in it, and with these scripts."""

    def part(found):
        name = found[1] or found[2]
        kind = "style" if name.endswith(".css") else "script"
        return f"<{kind}>\n{data(scripts) if name == 'lessons.js' else read(name)}</{kind}>"

    # What was put in is not searched again, whatever a script has in it.
    return re.sub(r'<link rel="stylesheet" href="(\w+\.css)">|<script src="(\w+\.js)"></script>', part, read("wheels.html"))
