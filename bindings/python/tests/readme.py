"""Writes each program of a page to a folder, and what it prints.

    readme.py PAGE FOLDER

A block of `python` is a program, and a block of `text` right after it is its output.
"""
import os
import re
import sys

BLOCK = re.compile(r"^```python\n(.*?)^```\n(?:\n*```text\n(.*?)^```\n)?", re.MULTILINE | re.DOTALL)

page, folder = sys.argv[1:]
os.makedirs(folder, exist_ok=True)
with open(page, encoding="utf-8") as file:
    blocks = BLOCK.findall(file.read())
for number, (program, output) in enumerate(blocks):
    for name, text in ("py", program), ("txt", output):
        with open(os.path.join(folder, f"program{number}.{name}"), "w", encoding="utf-8") as file:
            file.write(text)
