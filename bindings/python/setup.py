"""The extension module, and the library's files of which it is made. All else of the package is in pyproject.toml.

In the repository the library's files are where they belong. Each build there copies them to c/, for the source distribution.
"""
# SPDX-License-Identifier: MIT OR Apache-2.0
import os
import shutil
import sys

from setuptools import Extension, setup

OF_LIBRARY = [
    "generated/timers.c", "generated/NOTICE", "include/timers.h", "include/timers_desk.h", "tools/install/version",
    "LICENSES/MIT.txt", "LICENSES/Apache-2.0.txt",
]
COPIES = ["c/" + os.path.basename(name) for name in OF_LIBRARY]

if not os.path.exists("PKG-INFO"):  # which a source distribution has
    os.makedirs("c", exist_ok=True)
    for name, copy in zip(OF_LIBRARY, COPIES):
        if not os.path.exists(f"../../{name}"):
            sys.exit(f"timers: {name} is missing: build it in the repository, or from the source distribution")
        shutil.copy2(f"../../{name}", copy)
with open("c/version", encoding="utf-8") as file:
    version = file.read().strip()

setup(
    version=version,
    ext_modules=[Extension(
        "timers._timers", ["extension/_timers.c"], include_dirs=["c"], py_limited_api=True,
        depends=[*COPIES, "extension/common.h", "extension/wheel.h", "extension/desk.h"],
        extra_compile_args=["-std=c11", "-fvisibility=hidden"],
        extra_link_args=["-Wl,-z,relro,-z,now"] if sys.platform == "linux" else [],
    )],
    options={"bdist_wheel": {"py_limited_api": "cp311"}},  # a wheel serves each CPython from 3.11 on
)
