#!/usr/bin/env bats
# The package for Python: its types, its event loop, its hints, and what pip makes of it. Nothing needs a registry.
# PYTHON is the interpreter, by default python3.
# shellcheck disable=SC2030,SC2031,SC2154
load ../../../tests/helpers

setup_file() {
    cd "$BATS_TEST_DIRNAME/../../.." || return
    hide_toolchain
    export work=$BATS_FILE_TMPDIR python=${PYTHON:-python3}
    export PYTHONDONTWRITEBYTECODE=1 PIP_DISABLE_PIP_VERSION_CHECK=1 PIP_NO_INDEX=1
}

# python_headers: where Python.h of $python is
python_headers() { "${python:-python3}" -c 'import sysconfig; print(sysconfig.get_paths()["include"])'; }
# python_package FOLDER FLAGS..: the package for Python, in this folder
python_package() {
    local shared=-shared
    [ "$(uname)" != Darwin ] || shared="-bundle -undefined dynamic_lookup"
    mkdir -p "$1/timers"
    cp bindings/python/src/timers/{*.py,*.pyi,py.typed} "$1/timers"
    # shellcheck disable=SC2086
    cc $shared -std=c11 -fPIC -fvisibility=hidden -O2 $CFLAGS "${@:2}" -Igenerated -Iinclude -I"$(python_headers)" \
        -o "$1/timers/_timers.abi3.so" bindings/python/extension/_timers.c
}
# needs_python_package: the package in $work/python; skips the test if it can't be compiled here
needs_python_package() {
    local python=${python:-python3}
    needs "$python" cc
    [ -e "$(python_headers)/Python.h" ] || skip "no Python.h for $python: python3-dev"
    "$python" -c 'import sys; sys.exit(sys.version_info < (3, 11))' || skip "$python is older than 3.11"
    [ -e "$work/python" ] || python_package "$work/python"
}

# needs_setuptools: what builds the package, $python or Debian's, as $builder
needs_setuptools() {
    for builder in "$python" /usr/bin/python3; do
        ! "$builder" -c 'import setuptools, pip, venv, wheel' 2> /dev/null || return 0
    done
    skip "no Python with pip, setuptools and wheel"
}
# new_venv NAME: an environment that sees the builder's packages; pip_in and install_in NAME WORD..: its pip
new_venv() { "$builder" -m venv --system-site-packages --without-pip "$work/$1"; }
pip_in() { "$work/$1/bin/python" -m pip "${@:2}"; }
install_in() { pip_in "$1" install --no-build-isolation "${@:2}"; }
in_package() { (cd / && PYTHONPATH=$work/python "${@:1}"); }
# built KIND PROJECT: builds a wheel or an sdist (KIND) of the project in $work/KIND, without a network
built() { (cd "$2" && "$builder" -c "from setuptools import build_meta; build_meta.build_$1('$work/$1')"); }

@test "random calls have the answers of C, and what is held is owned" {
    needs_python_package
    needs_traces
    in_package "$python" -W error -X dev "$PWD/bindings/python/tests/replay_test.py" "$made"/timers.? "$made"/desk.?
}
@test "the edges are as C has them, and each refused allocation is survived" {
    needs_python_package
    in_package "$python" -W error -X dev "$PWD/bindings/python/tests/timers_test.py"
}
@test "timers in timers are released, finalizers may take, and a clock of real time is never early" {
    needs_python_package
    in_package "$python" -W error -X dev "$PWD/bindings/python/tests/edges_test.py"
}
@test "clients of a desk get all their words in threads, and its end" {
    needs_python_package
    in_package "$python" -W error -X dev "$PWD/bindings/python/tests/desk_test.py"
}

# Not optimized, as in sanitizers.bats. A block that was freed is kept for a while there, so that what is mapped is more: of
# 4 MB.
@test "all do the same under the sanitizers of addresses and of undefined behaviour" {
    needs_python_package
    python_package "$work/sanitized" -g -O0 -fsanitize=address,undefined -fno-sanitize-recover=all || skip "cc has no sanitizers"
    needs_traces
    local test preloaded
    preloaded="$(cc -print-file-name=libasan.so) $(cc -print-file-name=libubsan.so)"
    for test in desk_test timers_test edges_test "replay_test $made/timers.0 $made/timers.2 $made/desk.0"; do
        # shellcheck disable=SC2086
        PYTHONPATH=$work/sanitized PYTHONMALLOC=malloc ASAN_OPTIONS=detect_leaks=0:quarantine_size_mb=4 LD_PRELOAD=$preloaded \
            "$python" bindings/python/tests/${test/_test/_test.py}
    done
}

# Python refuses what is above the last number.
@test "the room that a desk needs is the sum of C++, and does not wrap around" {
    needs_python_package
    PYTHONPATH=$work/python has_rooms "$python" -c '
import sys, timers.desk
for line in sys.stdin:
    try:
        print(timers.desk.room_for(*map(int, line.split())))
    except OverflowError:
        print(2**64 - 1)'
}

@test "no call releases the GIL" {
    needs_python_package
    needs nm
    nm -D --undefined-only "$work/python/timers/_timers.abi3.so" > "$work/names"
    grep -q ' PyLong_AsUnsignedLongLong$' "$work/names"
    run grep -E 'PyEval_|PyGILState_|PyThread' "$work/names"
    [ "$status" -eq 1 ]
}

# Built by one Python, which has passed these tests, and used by the others: those of the path and Debian's, each under one of
# its names.
@test "one extension module works in each Python from 3.11 on" {
    needs_python_package
    local other executable tried
    named() { "$1" -c 'import os, sys; print(os.path.realpath(sys.executable))'; }
    tried=" $(named "$python") "
    for other in python3 /usr/bin/python3 python3.{11..15}; do
        "$other" -c 'import sys; sys.exit(sys.version_info < (3, 11))' 2> /dev/null || continue
        executable=$(named "$other")
        [[ $tried != *" $executable "* ]] || continue
        tried+="$executable "
        in_package "$other" -c 'import sys, timers; print(sys.version.split()[0], timers.Timers())'
        in_package "$other" "$PWD/bindings/python/tests/timers_test.py"
    done
}

@test "the loop over the wheel drops what is cancelled, and runs what is due in order" {
    needs_python_package
    in_package "$python" -W error -X dev "$PWD/bindings/python/tests/loop_test.py"
}
@test "CPython's own tests of asyncio pass with a loop over the wheel" {
    needs_python_package
    "$python" -c 'import test.test_asyncio' 2> /dev/null || skip "$python has no test.test_asyncio: libpython3-testsuite"
    in_package "$python" "$PWD/bindings/python/tests/asyncio_test.py"
}

# Each block of Python in the package's README is a program, and the text after it is what that prints.
@test "the README's programs print what it says" {
    needs_python_package
    "$python" bindings/python/tests/readme.py bindings/python/README.md "$work/readme"
    for program in "$work"/readme/*.py; do
        echo "$program"
        in_package "$python" -W error "$program" > "$work/out"
        diff "${program%.py}.txt" "$work/out"
    done
    [ "$(find "$work/readme" -name '*.py' | wc -l)" -ge 4 ]
}
@test "the hints are those of the types, and the README's programs keep them" {
    needs_python_package
    needs stubtest mypy
    (cd / && MYPYPATH=$work/python PYTHONPATH=$work/python stubtest timers)
    "$python" bindings/python/tests/readme.py bindings/python/README.md "$work/hints"
    MYPYPATH=$work/python mypy --cache-dir "$work/mypy" --strict --disable-error-code var-annotated --scripts-are-modules "$work"/hints/*.py
    printf 'from timers import Timers\ntimers: Timers[str] = Timers()\ntimers.stop(timers.start(1, "a") and 7)\ntimers.start(1, 2)\n' > "$work/wrong.py"
    run env MYPYPATH="$work/python" mypy --cache-dir "$work/mypy" "$work/wrong.py"
    [ "$status" -eq 1 ]
    [[ "$output" =~ expected.*Handle.*'expected "str"' ]]
}
@test "help shows the classes with their calls" {
    needs_python_package
    in_package "$python" -c 'import timers; help(timers)' > "$work/help"
    for words in 'class Timers' 'class Handle' 'class TimersError' 'start_at(self, deadline, action, /)' 'SMALL_LAST = 16777215' 'SERIALS_SPENT = 9'; do
        grep -qF "$words" "$work/help" || { echo "no $words"; return 1; }
    done
    [ "$(in_package "$python" -c 'import timers; print(timers.__version__)')" = "$(cat tools/install/version)" ]
}

@test "pip installs the module, and the first program runs" {
    needs_python_package
    needs_setuptools
    copy_tree "$work/tree"
    new_venv installed
    CFLAGS=-O0 install_in installed "$work/tree/bindings/python"
    printf '240: egg\n300: tea\n' | diff - <(cd / && "$work/installed/bin/python" "$OLDPWD/bindings/python/first.py")
}
@test "the wheel names what it is for and what it is, and is removed again" {
    [ -e "$work/installed" ] || skip "nothing was installed"
    package=$(cd / && "$work/installed/bin/python" -c 'import os, timers; print(os.path.dirname(timers.__file__))')
    for name in generated/NOTICE LICENSES/MIT.txt LICENSES/Apache-2.0.txt; do
        cmp "$name" "$(find "$package"/../timers-*.dist-info -name "${name##*/}")"
    done
    pip_in installed show --files timers > "$work/shown"
    for line in "Version: $(cat tools/install/version)" "Summary: Timers on hierarchical timing wheels.*" '  timers/_timers.abi3.so' \
        '  timers/py.typed' '  timers/_clock.py' '  timers/_timers.pyi' '  timers/desk.py' '  timers/asyncio.py' '  timers/asyncio.pyi'; do
        grep -x "$line" "$work/shown"
    done
    grep -x "Tag: cp311-abi3-linux_$(uname -m)" "$package"/../timers-*.dist-info/WHEEL
    grep -x "Root-Is-Purelib: false" "$package"/../timers-*.dist-info/WHEEL
    grep -x "Requires-Python: >=3.11" "$package"/../timers-*.dist-info/METADATA
    grep -q "^# timers" "$package"/../timers-*.dist-info/METADATA
    grep -F "$(licence)" bindings/python/pyproject.toml
    is_hardened "$package/_timers.abi3.so"
    [ "$(nm -D --defined-only "$package/_timers.abi3.so" | sed 's/.* //')" = PyInit__timers ]
    pip_in installed uninstall --yes timers
    [ ! -e "$package" ]
}
@test "the source distribution alone builds the same wheel, and has its tests" {
    needs_python_package
    needs_setuptools
    export CFLAGS="-O0 -g0" SOURCE_DATE_EPOCH=1700000000
    copy_tree "$work/repository"
    built wheel "$work/repository/bindings/python"
    mv "$work/wheel" "$work/wheel of repository"
    built sdist "$work/repository/bindings/python"
    mkdir "$work/sources"
    tar -xf "$work"/sdist/timers-*.tar.gz -C "$work/sources"
    cmp "$work"/sources/timers-*/c/timers.c generated/timers.c
    built wheel "$work"/sources/timers-*/
    cmp "$work"/wheel/timers-*.whl "$work/wheel of repository"/timers-*.whl
    new_venv "from sources"
    (cd / && install_in "from sources" "$work"/sdist/timers-*.tar.gz && "$work/from sources/bin/python" "$work"/sources/timers-*/tests/desk_test.py)
}
@test "two builds, in folders of their own, have the same bytes" {
    needs_python_package
    needs_setuptools
    for folder in one another/one; do
        copy_tree "$work/twice/$folder"
        (cd "$work/twice/$folder/bindings/python" && export SOURCE_DATE_EPOCH=1700000000 &&
            CFLAGS="-O0 -g0" "$builder" -c 'from setuptools.build_meta import *; build_wheel("../../out"); build_sdist(".")' &&
            tar -xf timers-*.tar.gz -C ../../out) # the archive itself has the time of its making
    done
    diff -r "$work/twice/one/out" "$work/twice/another/one/out"
}
@test "an editable install sees what is changed in the folder" {
    needs_python_package
    needs_setuptools
    copy_tree "$work/edited"
    new_venv editable
    (cd / && CFLAGS=-O0 install_in editable --editable "$work/edited/bindings/python")
    echo 'CHANGED = 1' >> "$work/edited/bindings/python/src/timers/__init__.py"
    (cd / && "$work/editable/bin/python" -c 'import timers; assert timers.CHANGED and timers.Timers().start(1, 2)')
}
@test "a build that can't be done says why" {
    needs_python_package
    needs_setuptools
    mkdir "$work/alone"
    cp -R bindings/python "$work/alone/"
    run built sdist "$work/alone/python"
    [ "$status" -eq 1 ]
    [[ "$output" == "timers: generated/timers.c is missing: build it in the repository, or from the source distribution" ]]
    run cc -fsyntax-only -DPy_GIL_DISABLED -Igenerated -Iinclude -I"$(python_headers)" bindings/python/extension/_timers.c
    [ "$status" -ne 0 ]
    [[ "$output" == *"a free-threaded Python does not have"* ]]
}
