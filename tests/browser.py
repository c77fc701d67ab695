"""A headless Chromium, driven by Debian's python3-selenium and chromium-driver."""
import json
import os
import re
import shutil

from selenium import webdriver
from selenium.common.exceptions import WebDriverException
from selenium.webdriver.chrome.service import Service
from selenium.webdriver.common.action_chains import ActionChains
from selenium.webdriver.common.keys import Keys

LIMIT = 120  # seconds for one answer
DRIVER = shutil.which("chromedriver")
LIGHTHOUSE = "devtools://devtools/bundled/third_party/lighthouse/lighthouse-dt-bundle.js"
ARGUMENTS = ["--headless=new", "--no-sandbox", "--disable-gpu", "--disable-dev-shm-usage", "--hide-scrollbars"]


class Browser:
    def __init__(self):
        options = webdriver.ChromeOptions()
        for argument in ARGUMENTS:
            options.add_argument(argument)
        options.set_capability("goog:loggingPrefs", {"browser": "ALL", "performance": "ALL"})
        self.driver = webdriver.Chrome(service=Service(DRIVER), options=options)
        self.driver.set_script_timeout(LIMIT)
        self.driver.set_page_load_timeout(LIMIT)
        self.parts = set()

    def __enter__(self):
        return self

    def __exit__(self, *_):
        self.driver.quit()

    def open(self, path, width=1280, height=900, is_dark=False, is_calm=True, parts=(), link=""):
        """Loads a file, and waits until it has run. It may load these files beside it, and nothing else. `link` is what
        follows its name in the address."""
        scheme = {"name": "prefers-color-scheme", "value": "dark" if is_dark else "light"}
        motion = {"name": "prefers-reduced-motion", "value": "reduce" if is_calm else "no-preference"}
        size = {"width": width, "height": height, "deviceScaleFactor": 1, "mobile": width < 600}
        self.driver.execute_cdp_cmd("Emulation.setDeviceMetricsOverride", size)
        self.driver.execute_cdp_cmd("Emulation.setEmulatedMedia", {"features": [scheme, motion]})
        self.faults()  # those of an earlier page are not of this one
        folder = os.path.dirname(os.path.abspath(path))
        self.parts = {f"file://{folder}/{part}" for part in parts}
        self.driver.get("about:blank")  # so that another link is another load
        self.driver.get(f"file://{os.path.abspath(path)}{link}")

    def axe(self):
        """The source of axe-core, from the copy of Lighthouse in Chromium's own tools, or None if it has none to be read."""
        read = "const done = arguments[1]; fetch(arguments[0]).then((got) => got.text()).then(done, () => done(''))"
        try:
            self.driver.get("devtools://devtools/bundled/devtools_app.html")
            bundle = self.driver.execute_async_script(read, LIGHTHOUSE)
            self.driver.get("about:blank")
            literal = re.search(r"`/\*! axe v[^`\\]*(?:\\.[^`\\]*)*`", bundle, re.DOTALL)
            return literal and self.value(literal[0])
        except WebDriverException:
            return None

    def run(self, script):
        self.driver.execute_script(script)

    def value(self, expression):
        """The value of an expression in the page; that of a promise is waited for."""
        return self.driver.execute_script(f"return {expression}")

    def press(self, key):
        ActionChains(self.driver).send_keys(getattr(Keys, key)).perform()

    def faults(self):
        """The errors and warnings of the page's console since the last call, and what it loaded besides its own file."""
        found = [entry["message"] for entry in self.driver.get_log("browser") if entry["level"] in ("SEVERE", "WARNING")]
        for entry in self.driver.get_log("performance"):
            event = json.loads(entry["message"])["message"]
            if event["method"] == "Network.requestWillBeSent" and event["params"].get("type") != "Document":
                url = event["params"]["request"]["url"]
                found += [] if url in self.parts else [f"loads {url[:80]}"]
        return found
