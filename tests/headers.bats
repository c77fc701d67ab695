#!/usr/bin/env bats
# What the headers and the libraries in LIB (by default build/lib) say of each other: names and the version. And what compilers
# say of the headers and of misuses. Headers assert their layouts; the programs of tests/c fail over a library with other ones.
# shellcheck disable=SC2030,SC2031,SC2086,SC2154
load helpers

setup_file() {
    cd "$BATS_TEST_DIRNAME/.." || return
    export work=$BATS_FILE_TMPDIR CC=${CC:-cc} CXX=${CXX:-c++} lib=${LIB:-$PWD/build/lib}
}
setup() {
    set -o pipefail
    needs "$CC"
}

# The headers compare their structs with what the library was built for. No system has to be there.
@test "numbers in memory have one width on processors of 32 and 64 bits" {
    run grep -nE '^[[:space:]]+size_t|size_t \*' include/timers.h include/timers_desk.h
    [ "$status" -eq 1 ]
    needs clang
    printf '#include <timers.h>\n#include <timers_desk.h>\n' > "$work/layout.c"
    for target in i386-none-elf armv7-none-eabi riscv32-none-elf powerpc-none-elf s390x-none-elf wasm32 i686-pc-windows-msvc arm64-apple-darwin; do
        echo "$target"
        clang --target=$target -ffreestanding -std=c11 -Wall -Wextra -pedantic -Werror -Iinclude -fsyntax-only "$work/layout.c"
    done
}

@test "the version of the header, as a text and as a number, is that of the library" {
    cat > "$work/version.c" << 'EOT'
#include <inttypes.h>
#include <stdio.h>
#include <timers.h>
int main(void)
{
    printf("%s %d %" PRIu32 "\n", TIMERS_VERSION, TIMERS_VERSION_NUMBER, timers_version());
    return 0;
}
EOT
    "$CC" $of_c -o "$work/version" "$work/version.c" "$lib/libtimers.a"
    awk -F. '{ number = $1 * 10000 + $2 * 100 + $3; print $0, number, number }' tools/install/version | diff - <("$work/version")
}

# The functions that the headers declare.
declared() {
    sed -n 's/^[a-z].*[ *]\(timers_[a-z_]*\)(\(\(const \)*struct timers.*\|void \*(\*.*\|void);\)$/\1/p' include/timers.h include/timers_desk.h | sort
}
@test "the shared object exports the headers' functions and no more" {
    diff <(declared) <(nm -D --defined-only "$lib/libtimers.so" | sed -n 's/.* T \([^@]*\).*/\1/p' | sort)
}
@test "only they can be linked with in the archive, and a shared object that embeds it exports none of them" {
    diff <(declared) <(nm -g --defined-only "$lib/libtimers.a" | sed -n 's/^[0-9a-f]* . //p' | sort)
    printf '#include <timers.h>\nuint64_t plug_in(struct timers *t);\nuint64_t plug_in(struct timers *t) { return timers_wakeup(t); }\n' > "$work/plug_in.c"
    "$CC" $of_c -fPIC -shared -o "$work/plug_in.so" "$work/plug_in.c" "$lib/libtimers.a"
    diff <(echo plug_in) <(nm -D --defined-only "$work/plug_in.so" | sed 's/.* //')
}

# An archive whose names are not hidden lets a plug-in use the calls, also from inline functions of the program's headers.
# With the other archive the plug-in can't be loaded.
@test "plug-ins may use the calls if who builds the archive shows its names" {
    CFLAGS="-O0 -DTIMERS_SHARED" tools/lib "$work/visible"
    cat > "$work/inlined.h" << 'EOT'
#include <timers.h>
static inline uint64_t first_deadline(struct timers *t) { return timers_wakeup(t); }
uint64_t plug_in(struct timers *t);
EOT
    printf '#include "inlined.h"\nuint64_t plug_in(struct timers *t) { return first_deadline(t); }\n' > "$work/plugged.c"
    cat > "$work/host.c" << 'EOT'
#include <dlfcn.h>
#include <stdio.h>
#include "inlined.h"
int main(int argc, char **argv)
{
    struct timers t = TIMERS_INIT;
    struct timers_handle handle;
    void *loaded = dlopen(argv[argc - 1], RTLD_NOW);
    uint64_t (*call)(struct timers *);
    if (!loaded)
        return puts(dlerror()), 1;
    *(void **)&call = dlsym(loaded, "plug_in");
    if (timers_new(&t, TIMERS_WIDE, 0) != TIMERS_OK || timers_start(&t, 42, 0, &handle) != TIMERS_OK)
        return 2;
    return call(&t) != 42;
}
EOT
    "$CC" $of_c -I"$work" -fPIC -shared -o "$work/plugged.so" "$work/plugged.c"
    for archive in "$work/visible" "$lib"; do
        "$CC" -std=c11 -I"$work" -Iinclude -rdynamic -o "$work/host" "$work/host.c" "$archive/libtimers.a" -ldl
        run "$work/host" "$work/plugged.so"
        [ "$status" -eq "$([ "$archive" = "$lib" ] && echo 1 || echo 0)" ]
    done
}

# Each macro and inline function of the headers, in use.
used=$(cat << 'EOT'
#include <timers.h>
#include <timers_desk.h>
int main(void)
{
    struct timers t = TIMERS_INIT;
    struct timers_desk desk = TIMERS_DESK_INIT;
    struct timers_line line = TIMERS_LINE_INIT;
    enum timers_status status = timers_new(&t, TIMERS_SMALL, TIMERS_SMALL_LAST);
    int ended = timers_line_ended(&line);
    timers_free(&t);
    timers_desk_free(&desk);
    ended = ended || timers_desk_message(TIMERS_DESK_OK)[0] != 'd';
    return timers_message(status)[0] == 'd' || timers_wakeup(&t) == TIMERS_NEVER || ended;
}
EOT
)
# Those of the loop and of bells, which need C of 1999.
used_in_loop=$(cat << 'EOT'
#ifndef TIMERS_LOOP_OWN_CLOCK
#include <timers_desk_bell.h>
#define nanoseconds NULL
static struct timers_bell bell = TIMERS_BELL_INIT;
static bool rings(struct timers_desk *desk, uint64_t now)
{
    timers_bell_ring(&bell);
    timers_bell_rest(&bell, timers_bell_new(&bell), timers_desk_patience(desk, now, timers_desk_turn(desk, now, &bell, 1)));
    timers_bell_free(&bell);
    return true;
}
#endif
#include <timers_loop.h>
struct connection {
    int socket;
    struct timers_event idle;
};
static void hang_up(struct timers_loop *loop, struct timers_event *event, uint64_t tick)
{
    struct connection *c = timers_event_owner(event, struct connection, idle);
    c->socket = timers_event_push_back(loop, event, tick) ? 1 : -1;
}
int main(void)
{
    struct timers_loop loop = TIMERS_LOOP_INIT;
    static struct connection c;
    c.idle.run = hang_up;
    if (timers_loop_new(&loop, nanoseconds, NULL, 1000) != TIMERS_OK || timers_event_after(&loop, &c.idle, 9) != TIMERS_OK)
        return 1;
    timers_loop_polled(&loop, timers_loop_timeout(&loop), 8);
    timers_loop_dispatch(&loop, 9);
    timers_event_pause(&loop, &c.idle);
    timers_event_cancel(&loop, &c.idle);
    timers_loop_free(&loop);
#ifndef TIMERS_LOOP_OWN_CLOCK
    (void)rings;
#endif
    return loop.alive > 0;
}
EOT
)
# as_header LANGUAGE COMPILER STANDARD FLAGS..
as_header() {
    echo "$2 -std=$3"
    "$2" -x "$1" -std="$3" -Iinclude "${@:4}" -c -o "$work/header.o" - <<< "$used"
    [[ $3 == *89 ]] || as_loop "$@"
}
# With CLOCK_MONOTONIC, and with a clock of one's own in a standard without it.
as_loop() {
    "$2" -x "$1" -std="$3" -Iinclude "${@:4}" -D_POSIX_C_SOURCE=200809L -c -o "$work/header.o" - <<< "$used_in_loop"
    "$2" -x "$1" -std="$3" -Iinclude "${@:4}" -DTIMERS_LOOP_OWN_CLOCK -c -o "$work/header.o" - <<< "
#include <stdint.h>
static uint64_t nanoseconds(void *data) { return data == 0; }
$used_in_loop"
}
# C of 1989, that of today and all C++ in between
in_c() {
    needs "$1"
    for standard in c89 gnu89 c99 gnu99 c11 gnu17 c2x; do
        as_header c "$1" $standard $warnings -Wc++-compat -Wstrict-prototypes -Wmissing-prototypes -Wdeclaration-after-statement
        as_header c "$1" $standard -Werror -O2 -Wpedantic
    done
}
in_cpp() {
    needs "$1"
    for standard in c++11 c++14 c++17 gnu++17 c++20 c++2b; do as_header c++ "$1" $standard $warnings -Wold-style-cast; done
    says "needs C++11" as_header c++ "$1" c++98
}
# says TEXT COMMAND..: the command fails, and what it writes has the text
@test "gcc has no warning about the headers" { in_c gcc; }
@test "clang has no warning about the headers" { in_c clang; }
@test "g++ has no warning about any header, and says which C++ they need" { in_cpp g++; }
@test "clang++ has no warning about any header, and says which C++ they need" { in_cpp clang++; }

# Those over FreeRTOS, io_uring and kqueue need headers that a machine may lack: tests/platforms and library.bats compile them.
@test "the examples compile without a warning, by gcc and by clang" {
    local checked=0
    for file in examples/c/*.c; do
        [[ $file =~ (freertos|uring|kqueue)\.c$ ]] && continue
        for compiler in gcc clang; do
            command -v $compiler || continue
            $compiler -std=c11 -O2 -Wall -Wextra -Werror -pedantic -Iinclude -c -o "$work/example.o" "$file"
            checked=$((checked + 1))
        done
    done
    [ "$checked" -ge 12 ] || skip "neither gcc nor clang"
}
@test "the first lines of docs/embedding.md compile without a warning" {
    { printf '#include <stdlib.h>\n#include <unistd.h>\n' && sed -n '/^## The whole loop/,/^    \.\./s/^    //p' docs/embedding.md | sed '$d'; } > "$work/page.c"
    grep -q '^void hang_up' "$work/page.c"
    for compiler in gcc clang; do
        ! command -v $compiler || $compiler -std=gnu11 -Wall -Wextra -Werror -pedantic -Iinclude -c -o "$work/page.o" "$work/page.c"
    done
}

# A line for each function of the headers that returns a status or a bool: which, its name, and a call that reads no result.
calls_unread() {
    awk '/^[a-z]/ || text { text = text " " $0 } /[;{]/ { if (text) print text; text = "" }' include/timers.h include/timers_desk.h include/timers_loop.h include/timers_desk_bell.h |
        sed -nE 's/.*(enum timers_[a-z_]*(status)|(bool)) (timers_[a-z_]+)\((.*)\)[ ;{]*$/\2\3 \4 \5/p' | while read -r of name parameters; do
        arguments=$(sed -E -e 's/\(\*([a-z]+)\)\([^)]*\)/\1/g' -e 's/[^,]*[ *]([a-z_]+)/\1/g' <<< "$parameters")
        echo "$of $name void call_$name($parameters); void call_$name($parameters) { $name($arguments); }"
    done
}
@test "the compiler warns if a status is not read, and not if a bool is, but of these functions" {
    calls_unread > "$work/calls"
    cut -d' ' -f3- "$work/calls" > "$work/unread.c"
    "$CC" ${of_c/-Werror/} -D_POSIX_C_SOURCE=200809L -include timers_desk_bell.h -include timers_loop.h -c -o "$work/unread.o" "$work/unread.c" 2> "$work/said"
    sed -nE 's/^[^:]*unread.c:([0-9]+):.*: ignoring return value.*/\1/p' "$work/said" > "$work/warned"
    awk 'NR == FNR { warned[$1]; next } ($1 == "bool") == (FNR in warned) { print $2 }' "$work/warned" "$work/calls" > "$work/others"
    printf 'timers_%s\n' stop tick advance advance_to desk_{serve,serve_all,tick,advance} line_{receive,finish} desk_turn | diff - "$work/others"
}
@test "short enumerations are refused in C and C++" {
    needs "$CXX"
    for language in c c++; do
        for header in timers.h timers_desk.h; do
            says "no -fshort-enums" "$CC" -x $language -fshort-enums -Iinclude -fsyntax-only - <<< "#include <$header>"
        done
    done
}
