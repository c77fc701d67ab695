#!/usr/bin/python3
# SPDX-License-Identifier: MIT OR Apache-2.0
"""in_browser.py FOLDER SCRIPT..   runs modules in a headless Chromium, and prints what they log

The page is served from this machine. It has modules of the folder, whose node_modules has the package. Other files that are
named may be loaded, too. An error, a warning
or anything else that the page loads is a failure.
"""
import functools
import http.server
import os
import sys
import threading

TOP = os.path.join(os.path.dirname(os.path.abspath(__file__)), "../../..")
sys.path[:0] = [os.path.join(TOP, "tests")]
sys.dont_write_bytecode = True
import browser  # noqa: E402

PACKAGE = "node_modules/libtimers"
PAGE = """<!doctype html><link rel="icon" href="data:,">
<script type="importmap">{"imports": {"libtimers": "./%s/index.js"}}</script>
<script>window.logged = []; console.log = (...words) => logged.push(words.join(" "));</script>
<script type="module">
window.done = (async () => { %s })().then(() => "", String);
</script>
"""


class Quiet(http.server.SimpleHTTPRequestHandler):
    def log_message(self, *_):
        pass


folder, scripts = sys.argv[1], sys.argv[2:]
with open(os.path.join(folder, "page.html"), "w", encoding="utf-8") as file:
    file.write(PAGE % (PACKAGE, " ".join(f'await import("./{script}");' for script in scripts if script.endswith(".mjs"))))
server = http.server.ThreadingHTTPServer(("127.0.0.1", 0), functools.partial(Quiet, directory=folder))
threading.Thread(target=server.serve_forever, daemon=True).start()
site = f"http://127.0.0.1:{server.server_port}"
with browser.Browser() as page:
    page.faults()
    page.parts = {f"{site}/{name}" for name in [*scripts, f"{PACKAGE}/index.js", f"{PACKAGE}/timers.wasm"]} | {"data:,"}
    page.driver.get(f"{site}/page.html")
    error = page.value("window.done")
    print("\n".join(page.value("logged")))
    faults = page.faults()
server.shutdown()
if error or faults:
    sys.exit(f"{error} {faults}")
