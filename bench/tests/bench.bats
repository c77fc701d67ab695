#!/usr/bin/env bats
# That the benchmarks measure work that was done, and what docs/platforms.md says of other timers on a small machine. The
# library is that which `make` has built.
# shellcheck disable=SC2034,SC2086,SC2154
load ../../tests/helpers
load ../../tests/small

setup_file() {
    cd "$BATS_TEST_DIRNAME/../.." || return
    export work=$BATS_FILE_TMPDIR page=docs/platforms.md
    needs_built build/lib/libtimers.a
}
setup() { set -o pipefail; }

# skippable FILE FIRST CALLS: those calls do nothing if $SKIPS names one, in the block that begins with the line FIRST
skippable() {
    local call="($3)\([^{]*\{"
    sed -i -E "/^$2/,/^(\};|#elif)/{ s/^((  |CALL )void $call)/\1 if (skips(\"\3\")) return;/; t
        s/^((  |CALL )[a-zA-Z].*[ *]$call)/\1 if (skips(\"\3\")) return 0;/ }" "$1"
}

# refuses CALLS COMMAND..: the benchmark passes, but fails if one of the calls is skipped. Client threads then wait for their
# words without end, and are ended after $within seconds.
refuses() {
    local call
    timeout 60 "${@:2}"
    for call in ${1//|/ }; do
        run env SKIPS="$call" timeout "${within:-60}" "${@:2}"
        echo "$call skipped: status $status"
        [ "$status" -ne 0 ]
    done
}

@test "each benchmark refuses a facility that skips work" {
    local wheel='timers_start|timers_tick|timers_expire_batch' line='timers_line_start|timers_line_receive'
    local desk="$line|timers_desk_serve_all|timers_desk_tick|timers_desk_flush_all"
    needs g++ make python3
    tree=$BATS_TEST_TMPDIR/tree
    mkdir -p "$tree/tools" && cp tools/hardening "$tree/tools/"
    cp -r bench include "$tree/" && cd "$tree/bench" && rm -rf build
    for file in wheels.hpp peers.h desk_clients.h; do
        sed -i '1i #include <stdlib.h>\n#include <string.h>\nstatic inline int skips(const char *call) {\n  static const char *named;\n  if (!named \&\& !(named = getenv("SKIPS"))) named = "";\n  return !strcmp(named, call);\n}' "$file"
    done
    skippable facilities.hpp 'struct LibTimers' 'start|stop|restart|tick|drain|pass'
    skippable next.cpp 'struct Asked' 'set|ask|pass_to'
    skippable peers.h '#if defined.SET_AT' 'set|next'
    skippable desk_calls.cpp 'struct LibDesk' 'send|serve|flush|tick|read'
    for call in ${wheel//|/ } ${desk//|/ }; do
        sed -i "/^#include \"timers_desk.h\"/a #define $call(...) (skips(\"$call\") ? 0 : $call(__VA_ARGS__))" desk_threads.c
    done
    make -s -j4 build/tail build/next build/desk_calls build/desk_threads build/peers_SET_AT build/peers_HEAP CXXFLAGS="-std=c++17 -DWITH_TIMERS_C -I../include" REGISTRY= UV_LIB= \
        TIMERS_C="$OLDPWD/build/lib/libtimers.a"
    refuses 'start|tick|drain' build/tail timers-c 1000 spread 2000
    refuses 'restart|tick' build/tail timers-c 1000 shuffled 2000
    refuses "start|restart|tick|drain|pass" build/tail timers-c 1000 keep-alive 1000
    refuses 'tick|drain' build/tail timers-c 1000 moves
    refuses pass build/tail timers-c 1000 growth
    refuses stop build/tail timers-c 1000 room
    refuses 'set|ask|pass_to' build/next timers_wakeup 100 short
    refuses 'send|serve|flush|tick|read' build/desk_calls desk 8 200
    refuses 'send|serve|flush|read' build/desk_calls flush-desk 8 10
    within=1 refuses "$desk" build/desk_threads desk 2 200 8 64
    for way in "mutex 2 200 1" "mutex 2 200 2" "locked 2 200" "own 2 200"; do
        # shellcheck disable=SC2086  # words
        within=1 refuses "$wheel" build/desk_threads $way
    done
    refuses 'set|next' python3 peers.py --only time --sizes 100 --repeats 1 --peers SET_AT,HEAP
}

# The peers of the page's list, by their macros.
peers='SET_AT timers.h
LIST a sorted list
HEAP_ORDERED a heap with four children in order
WHEEL wheels in your structs'
# pushes HELD: the instructions of a push back, by the difference of 64 and 576 of them
pushes() {
    local few many
    few=$(instructions "$work/few" 64 "$1")
    many=$(instructions "$work/few" 576 "$1")
    echo $(((many - few) / 512))
}
@test "no push back takes more than the page says, of this library or of its peers, nor do these take more code and data" {
    needs_m4
    by_gcc
    while read -r peer name; do
        read -r -a said < <(rows "Or a sorted list" | sed -n "s/^$name //p")
        $m4 -Os -std=c11 -Wall -Wextra -Werror -pedantic -Iinclude -D$peer -DTIMERS_NO_DESK -DTIMERS_NO_SMOOTH -o "$work/few" bench/few.c generated/timers.c
        none=$(pushes 0)
        for at in 0 1 2 3; do
            held=$((at < 3 ? 8 * 4 ** at : 1000))
            at_most "${said[at]}" "$(($(pushes $held) - none))" "$name, $held"
        done
        [ $peer != SET_AT ] || continue
        linked -Os -DTIMERS='"../../bench/peers.h"' -D$peer
        at_most "${said[4]}" "$bytes" "$name, code"
        at_most "$((said[5] + said[6] + 4))" "$ram" "$name, data, with the program's own count"
    done <<< "$peers"
}
