#!/usr/bin/env bats
# The programs of examples/c, tests/c and tests/driver over the libraries in LIB, by default build/lib. CALLS
# is how many random calls a run makes; the driver makes twice as many over each table. tests/headers.bats has what needs no run,
# tests/platforms other processors and systems.
# shellcheck disable=SC2030,SC2031,SC2034,SC2086,SC2154
load helpers

setup_file() {
    cd "$BATS_TEST_DIRNAME/.." || return
    export work=$BATS_FILE_TMPDIR CC=${CC:-cc} CXX=${CXX:-c++} lib=${LIB:-$PWD/build/lib} calls=${CALLS:-100000}
    export library=$lib/libtimers.a
}
setup() {
    set -o pipefail
    needs "$CC"
}

@test "the examples in C print what they should" {
    for program in $printing; do
        echo "$program"
        build $program.c
        prints examples/c/$program.stdout
    done
    build event_loop.c
    runs | grep -v 'bytes of input' | diff examples/c/event_loop.stdout -
}
@test "timers outlive the process that made them" {
    build outlive.c
    prints examples/c/outlive.stdout "$work"
}
@test "over UDP the text arrives whole, and the jobs that repeat wait at the end" {
    build reliable_udp.c
    for seed in 1 2718; do runs $seed | tail -n 2 | diff <(printf 'Timers start, stop and expire in constant time.\n0 timers left\n') -; done
    build job_scheduler.c
    runs | tail -n 1 | grep '^5 jobs wait$'
}

@test "random calls are recorded, for wrappers to replay" { needs_traces "$library"; }
# agrees KIND: over each table each status and each step comes with 200,000 calls
agrees() {
    needs_traces "$library"
    "$made/driver" "$1" $((2 * calls)) 1
    "$made/driver" --copies "$1" 200000 2
}
@test "random calls agree with a sorted list over each table, refused allocations among them, and no other calls allocate" { agrees timers; }
@test "no call of smooth wheels moves more timers than the header says, which a tick of the others does" {
    build ../costs/calls.c
    for shape in spread bucket tick order expired again wave; do runs 1 $shape 10000; done
    runs 0 wave 10000
}
@test "that one table alone lacks a case is noticed" {
    printf '#include "trace.h"\nbool __real_has_all(const struct wanted *, size_t), __wrap_has_all(const struct wanted *, size_t);\n%s\n' \
        'bool __wrap_has_all(const struct wanted *w, size_t n) { static bool later; bool all = __real_has_all(w, n) && later; later = true; return all; }' > "$work/lacks.c"
    build_driver "$work/program" -Itests/driver "$work/lacks.c" $library -Wl,--wrap=has_all
    run runs timers 200000 1
    [ "$status" -eq 1 ]
    [ -z "$output" ]
}
@test "fields of the crates' types lie where names in timers.c say" {
    needs python3
    (cd tools && python3 -B -m translator.fields) > "$work/layout.h" || skip "no python3 from 3.11 on"
    build layout.c -I"$work" && runs
}

@test "events of a loop run as a sorted list says" { build loop_model.c && runs $((10 * calls)) 1; }
@test "so they do in C++" { build loop_model.cpp && runs $calls 2; }
@test "an armed event that was freed is noticed" { build loop_model.c && runs 0 && build loop_model.c -DFORGETS && notices 0; }
@test "a server that stalls anywhere hangs up on no client that talks, and on each that is silent" {
    build loop_stalls.c
    for seed in 0 1 2 3 4 5; do runs $((calls / 4)) $seed; done
}

# serves CLIENTS FILE FLAGS..: stopped for longer than its time-out, the server hangs up on each silent client and on no
# other. If the clients themselves were late, or the port is another's, it is tried again.
serves() {
    [ "$(ulimit -Hn)" -gt 2100 ] || skip "fewer than 2,100 files may be open"
    build "${@:2}"
    mv "$work/program" "$work/server"
    build idle_load.c
    for _ in 1 2 3; do
        run "$work/program" "$1" $((20000 + RANDOM % 10000)) "$work/server"
        echo "$output"
        [ "$status" -ge 77 ] || return "$status"
        ! grep "^io_uring: " <<< "$output" || skip "the kernel refuses io_uring"
    done
    [ "$status" -ne 77 ] || skip "the machine is too busy"
    return 1
}
@test "a server that was stopped hangs up on each of 200 silent clients, and on none of 1,800 that talk" { serves 2000 idle_server.c; }
@test "so it does over kqueue" { serves 500 idle_kqueue.c -D_GNU_SOURCE -Itests/c/kqueue; }
@test "so it does over io_uring" {
    echo '#include <liburing.h>' | "$CC" -fsyntax-only -xc - || skip "no liburing"
    library="$library -luring" serves 500 idle_uring.c -std=gnu11
}

# A test and, built with a mistake, that it notices it.
@test "each allocation of timers and of a desk is refused in turn, and the call that is made again goes on" { build refused.c && runs; }
@test "that nothing was refused is noticed" { build refused.c -DFORGETS && notices; }
@test "there is room for as many timers as links can name, and for no more" {
    build most.c
    run runs
    [ "$status" -ne 77 ] || skip "no addresses for 4.29 billion timers"
    [ "$status" -eq 0 ]
}
@test "timers take the memory that the header says" { build memory.c $wrap && runs; }
@test "callers of the library are found from inside it" { build backtrace.c $wraps && runs; }

@test "a desk's room is enough for what a client keeps, and with one word less it isn't" { build desk_edges.c && runs; }
@test "random calls to a desk, its lines freed and opened again, agree with a model over each table" { agrees desk; }
@test "threads beside a desk get all their words, and the end of them" {
    build desk_threads.c
    for clients in 1 8 $(most_clients); do runs $clients 10000 mixed; done
    runs 8 10000
    runs 8 2000 deaf
    build desk_threads.c -DREFUSE $wraps
    runs 8 10000 mixed
}
@test "desks and lines may be freed while the other side calls" { build desk_frees.c && runs 200 8; }
@test "clients come and go in threads, and lines are opened again" {
    build desk_lives.c
    runs 1 30
    runs 8 30
    runs "$(most_clients)" 10
}

@test "threads wake each other by bells, and a ring that is needed is a system call" {
    for pipe in "" -DTIMERS_BELL_PIPE; do
        build desk_bell.c -Wl,--wrap=write $pipe
        runs pass 20000
        runs load 20000
    done
}
