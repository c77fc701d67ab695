#!/usr/bin/env bats
# The wrapper for C++: its examples, models and misuses, over the libraries in LIB, by default build/lib, and by other projects.
# CC and CXX are the compilers, by default cc and c++. bindings/cpp/tests/cpp.bash has what other processors run.
# shellcheck disable=SC2030,SC2031,SC2034,SC2086,SC2154
load ../../../tests/helpers
includes="-Iinclude -Ibindings/cpp/include"
of_cpp+=" $includes -Itests/c"
tests=bindings/cpp/tests examples=bindings/cpp/examples

setup_file() {
    cd "$BATS_TEST_DIRNAME/../../.." || return
    hide_toolchain
    unset PREFIX BINDIR LIBDIR INCLUDEDIR DATADIR MANDIR DOCDIR DESTDIR
    export top=$PWD work=$BATS_FILE_TMPDIR CC=${CC:-cc} CXX=${CXX:-c++} lib=${LIB:-$PWD/build/lib}
    export library=$lib/libtimers.a
}
setup() { set -o pipefail; }
egg_and_tea() { printf '2400: egg\n3000: tea\n'; }

@test "the first program prints the actions' names" { build $examples/first.cpp && prints <(egg_and_tea); }
@test "connections time out over a real clock, in order" { build $examples/connections.cpp && prints $examples/connections.stdout; }
@test "timers outlive the process that made them" { build $examples/outlive.cpp && prints examples/c/outlive.stdout "$work"; }

@test "random calls have the answers of C" {
    needs_traces "$library"
    build $tests/replay.cpp
    replays "$made"/timers.? "$made"/desk.?
}
@test "the edges are as the header says" { build $tests/agree.cpp $wrap && runs; }
@test "so they are in C++20, by clang++" {
    needs clang++
    CXX=clang++ of_cpp=${of_cpp/c++17/c++20} build $tests/agree.cpp $wrap
    runs
}
@test "a desk and its lines are moved, and throw what is refused" { build $tests/desk_agree.cpp && runs; }
@test "the room that a desk needs is one sum, and does not wrap around" {
    needs "$CXX"
    "$CXX" $of_cpp -x c++ -o "$work/program" - -x none $library << 'EOT'
#include <iostream>
#include <timers_desk.hpp>
int main() { for (std::uint64_t t, r; std::cin >> t >> r; ) std::cout << timing::desk::config(1, t, r).room << "\n"; }
EOT
    has_rooms runs
}

# Not optimized, as in tests/sanitizers.bats. For the sanitizer of memory it would need a C++ library that is compiled for it.
@test "gcc, addresses and undefined behaviour: models" {
    with gcc address,undefined
    needs_traces
    build $tests/agree.cpp $wrap $sanitize
    runs
    build $tests/replay.cpp $sanitize
    replays "$made"/timers.? "$made"/desk.?
    build $tests/desk_agree.cpp $sanitize
    runs
}

warns_of_nothing() {
    needs "$1"
    for standard in c++17 c++20 c++2b; do
        "$1" -std=$standard $warnings -Wold-style-cast $includes -Itests/c -fsyntax-only $tests/agree.cpp $tests/desk_agree.cpp
    done
    for header in timers.hpp timers_desk.hpp; do
        says "needs C++17" "$1" -std=c++14 $includes -fsyntax-only -x c++ - <<< "#include <$header>"
        [ "$(grep -c 'error:' <<< "$output")" -eq 1 ]
    done
}
@test "g++ has no warning about any header, and says which C++ they need" { warns_of_nothing g++; }
@test "clang++ has no warning about any header, and says which C++ they need" { warns_of_nothing clang++; }
@test "the examples compile without a warning, by g++ and by clang++" {
    local checked=0
    for compiler in g++ clang++; do
        command -v $compiler || continue
        for file in "$examples"/*.cpp; do
            $compiler -std=c++17 -O2 -Wall -Wextra -Werror -pedantic $includes -c -o "$work/example.o" "$file"
            checked=$((checked + 1))
        done
    done
    [ "$checked" -ge 3 ] || skip "neither g++ nor clang++"
}

# A call that would throw says its status in the program's words, and ends the program.
@test "without exceptions a call that is refused ends the program" {
    cat > "$work/refused.cpp" << 'EOT'
#include <cstdio>
#ifdef SAYS
#define TIMERS_REFUSED(status) std::puts(timers_message(status)), std::fflush(stdout)
#define TIMERS_DESK_REFUSED(status) std::puts(timers_desk_message(status)), std::fflush(stdout)
#endif
#include <timers.hpp>
#include <timers_desk.hpp>
using namespace std::chrono_literals;
int main(int count, char **)
{
    timing::timers<> timers;
    timers.reserve(2);
    timers.start(3ms, 7);
    if (timers.take(timers.at(3ms))->action != 7)
        return 1;
    if (count > 1) {
        std::vector<timing::line> lines;
        timing::desk desk(lines, TIMERS_DESK_CLIENTS + 1, timing::desk::config(1, 1, 1));
    }
    timers.start(0ms, 1);
}
EOT
    for compiler in g++ clang++; do
        command -v $compiler || continue
        for flag in "" -DSAYS; do
            $compiler -std=c++17 -fno-exceptions -fno-rtti $warnings $flag $includes -o "$work/refused" "$work/refused.cpp" "$lib/libtimers.a"
            run "$work/refused"
            [ "$status" -eq 134 ]
            [ "$output" = "${flag:+the interval is 0}" ]
            run "$work/refused" desk
            [ "$status" -eq 134 ]
            [ "$output" = "${flag:+a number of clients, room or configuration is out of range}" ]
        done
    done
}

# The comment beside each misuse is part of what the compiler says. It reads what all have, the headers, once.
@test "misuses don't compile" {
    needs "$CXX"
    sed -n 's/^#.*if MISUSE == [0-9]* *\/\* \(.*\) \*\/$/\1/p' $tests/misuse.cpp > "$work/misuses"
    [ "$(wc -l < "$work/misuses")" -eq 18 ]
    for compiler in g++ clang++; do
        command -v "$compiler" || continue
        mkdir "$work/$compiler"
        grep '^#include' $tests/misuse.cpp > "$work/$compiler/headers.hpp"
        with_flags() { "$compiler" -std=c++17 -Werror -Wall -Wextra $includes "$@"; }
        with_flags -x c++-header -o "$work/$compiler/headers.hpp.gch" "$work/$compiler/headers.hpp"
        misuse() { with_flags -DMISUSE="$1" -include "$work/$compiler/headers.hpp" -fsyntax-only $tests/misuse.cpp; }
        misuse 0
        number=0
        while read -r text; do says "$text" misuse $((++number)); done < "$work/misuses"
    done
}

@test "g++ builds a program of timers.c" {
    needs g++
    g++ -std=c++17 -Wall -Wextra -Werror $includes -o "$work/program" $examples/first.cpp generated/timers.c
    prints <(egg_and_tea)
}
@test "CMake builds and runs the first program" {
    needs cmake c++
    mkdir "$work/cmake"
    cat > "$work/cmake/CMakeLists.txt" << EOT
cmake_minimum_required(VERSION 3.15)
project(first LANGUAGES CXX)
add_subdirectory($top timers)
add_executable(first $top/$examples/first.cpp)
target_compile_features(first PRIVATE cxx_std_17)
target_link_libraries(first PRIVATE timers::timers)
add_custom_target(run COMMAND first)
EOT
    cmake -S "$work/cmake" -B "$work/cmake/build"
    cmake --build "$work/cmake/build" --target run > "$work/cmake/out"
    grep -x '2400: egg' "$work/cmake/out"
    grep -x '3000: tea' "$work/cmake/out"
}
@test "Meson builds and runs the first program" {
    needs meson ninja c++
    mkdir -p "$work/meson/subprojects"
    ln -s "$top" "$work/meson/subprojects/timers"
    cp $examples/first.cpp "$work/meson"
    cat > "$work/meson/meson.build" << 'EOT'
project('first', 'cpp', default_options: 'cpp_std=c++17')
executable('first', 'first.cpp', dependencies: dependency('timers', fallback: 'timers'))
EOT
    meson setup --wrap-mode=forcefallback "$work/meson/build" "$work/meson"
    ninja -C "$work/meson/build"
    "$work/meson/build/first" | diff <(egg_and_tea) -
}

@test "make install puts headers and examples beside those of C, where the first program builds" {
    needs c++ pkg-config
    needs_built timers build/lib/libtimers.a
    PREFIX=$work/prefix tools/install/install
    cd "$work/prefix"
    [ -e include/timers.hpp ]
    [ -e include/timers_desk.hpp ]
    # shellcheck disable=SC2046
    c++ -std=c++17 -o "$work/program" share/doc/timers/examples/c/first.cpp $(PKG_CONFIG_PATH=lib/pkgconfig pkg-config --cflags --libs timers)
    LD_LIBRARY_PATH=lib prints <(egg_and_tea)
}

# there PLATFORM COMPILER: what tests/platforms plays there of C++, after that a program starts and the library compiles
there() {
    needs "$2"
    run env PARTS=$tests/cpp.bash tests/platforms "$1"
    echo "$output"
    [[ ${lines[0]} != skipped:* ]] || skip "${lines[0]}"
    [ "${lines[-1]}" = '3 passed, 0 failed' ]
}
@test "on ARMv7" { there armhf arm-linux-gnueabihf-g++; }
@test "on s390x" { there s390x s390x-linux-gnu-g++; }
@test "on Windows" { there windows x86_64-w64-mingw32-g++-posix; }
