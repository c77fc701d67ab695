#!/usr/bin/env bats
# The C tests and the models of timers and of the desk under sanitizers, with the library compiled by the same compiler for
# the same sanitizer: none reports anything. Each of the last tests makes a mistake, which the sanitizer has to find inside the
# library. Nothing is optimized, so that nothing is removed at which a sanitizer would look.
# shellcheck disable=SC2030,SC2031,SC2034,SC2086,SC2154
load helpers

setup_file() {
    cd "$BATS_TEST_DIRNAME/.." || return
    export work=$BATS_FILE_TMPDIR
}
setup() { set -o pipefail; }

examples() {
    for program in $printing; do
        echo "$program"
        build $program.c $sanitize
        prints examples/c/$program.stdout
    done
    for program in event_loop reliable_udp job_scheduler; do
        echo "$program"
        build $program.c $sanitize
        runs > "$work/out"
    done
}
models() {
    build_driver "$work/program" -DMALLOC_BLOCKS $sanitize "$library"
    for kind in timers desk; do
        runs $kind 10000 3
        runs --copies $kind 10000 4
    done
    build loop_model.c $sanitize
    runs 30000 2
    build desk_edges.c $sanitize
    runs
}
threads() {
    build desk_threads.c $sanitize
    runs 8 2000 mixed
    runs "$(most_clients)" 200 mixed
    runs 8 500 deaf
    build desk_threads.c -DREFUSE $wraps $sanitize
    runs 8 1000 mixed
    build desk_frees.c $sanitize
    runs 30 8
    build desk_lives.c $sanitize
    runs 8 20
    build desk_bell.c -Wl,--wrap=write $sanitize
    runs pass 5000
    runs load 5000
}
# The examples with threads.
servers() {
    for program in desk_server desk_sockets; do
        build $program.c $sanitize
        prints examples/c/$program.stdout
    done
}
# each COMPILER SANITIZERS PART..: the parts, in which nothing is found
each() {
    with "$1" "$2"
    for part in "${@:3}"; do $part; done
}

@test "gcc, addresses and undefined behaviour: the library compiles" { with gcc address,undefined; }
@test "gcc, addresses and undefined behaviour: examples, timers and desks" { each gcc address,undefined examples models; }
@test "gcc, addresses and undefined behaviour: threads" { each gcc address,undefined threads; }
@test "clang, addresses and undefined behaviour: timers and desks" { each clang address,undefined models; }
@test "clang, threads: threads, and servers that have some" { each clang thread threads servers; }
@test "clang, memory: examples, timers, desks and threads" { each clang memory examples models threads; }

# finds COMPILER SANITIZER MISTAKE TEXT: of tests/c/misuse.c, and reports it so
finds() {
    with "$1" "$2"
    build misuse.c $sanitize
    runs none
    notices "$3"
    [[ $output == *$4* ]]
}
@test "gcc, addresses: a block that is too short is noticed" { finds gcc address,undefined short heap-buffer-overflow; }
@test "clang, addresses: a block that is too short is noticed" { finds clang address,undefined short heap-buffer-overflow; }
@test "clang, undefined behaviour: a block that isn't aligned is noticed" { finds clang undefined askew alignment; }
@test "clang, threads: two threads in one struct are noticed" { finds clang thread shared "data race"; }
@test "clang, memory: a struct that was not set is noticed" { finds clang memory unset use-of-uninitialized-value; }
@test "clang, threads: a desk without atomics is noticed" {
    with clang thread
    library=$work/plain.o
    compile_library '-D__atomic_load_n(p, order)=(*(p))' '-D__atomic_store_n(p, v, order)=((void)(*(p) = (v)))' \
        '-D__atomic_exchange_n(p, v, order)=__extension__ ({ __typeof__(*(p)) old = *(p); *(p) = (v); old; })'
    build desk_threads.c $sanitize
    notices 2 2000
    [[ $output == *"data race"* ]]
}
