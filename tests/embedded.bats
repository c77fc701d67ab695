#!/usr/bin/env bats
# What docs/platforms.md says of small machines, measured: without malloc, on a Cortex-M4 that qemu has (tests/platforms runs more
# there). The page's numbers are bounds for Debian 12's compilers, but for those of memory, which hold everywhere.
# shellcheck disable=SC2034,SC2086
load helpers
load small

setup_file() {
    cd "$BATS_TEST_DIRNAME/.." || return
    export work=$BATS_FILE_TMPDIR page=docs/platforms.md
}
setup() { set -o pipefail; }
# by COMPILER: names the library's object, which is made once
by() {
    local object=$work/${1%% *}.o
    [ -e "$object" ] || $1 $small -c -o "$object" generated/timers.c
    echo "$object"
}

@test "the library without malloc calls memcpy and memset alone, and needs no header of C" {
    needs clang
    for target in aarch64-none-elf thumbv6m-none-eabi riscv32-unknown-elf; do
        regs=
        [ $target != aarch64-none-elf ] || regs=-mgeneral-regs-only
        clang --target=$target $regs -ffreestanding -nostdlibinc -Os $small -c -o "$work/timers.o" generated/timers.c
        nm -u "$work/timers.o" | awk '{ print $2 }' > "$work/called"
        grep -x memcpy "$work/called"
        # Shifts and division of 64 bits are in the compiler's own library.
        run grep -vxE 'memcpy|memset|__aeabi_[ul][a-z]+|__(udiv|umod|clz|ctz)[sd]i[23]' "$work/called"
        [ "$status" -eq 1 ]
    done
}

@test "without malloc no timers are made before there is an allocator" {
    needs cc
    cat > "$work/none.c" << 'EOT'
#include <timers.h>
int main(void)
{
    struct timers timers = TIMERS_INIT;
    timers_free(&timers);
    return timers_new(&timers, TIMERS_WIDE, 0) != TIMERS_NO_MEMORY;
}
EOT
    cc $small -o "$work/none" "$work/none.c" "$(by cc)"
    "$work/none"
    run nm -u "$work/none"
    [[ $output != *alloc* ]]
}

@test "the example runs in a static buffer" {
    needs cc
    cc $small -o "$work/static" examples/c/static_memory.c "$(by cc)"
    "$work/static" | diff examples/c/static_memory.stdout -
}
@test "and, by the page's commands, on a Cortex-M4" {
    needs_m4
    sed -n '/^## Small machines/,/^## In/s/^    //p' "$page" | sed "s, static\>, $work/static," > "$work/commands"
    [ "$(wc -l < "$work/commands")" -eq 3 ]
    timeout 600 sh -e "$work/commands" | diff examples/c/static_memory.stdout -
}

@test "a project of CMake builds it so" {
    needs cmake cc
    mkdir "$work/app"
    printf '%s\n' 'cmake_minimum_required(VERSION 3.15)' 'project(app C)' "add_subdirectory($PWD timers)" \
        "add_executable(app $PWD/examples/c/static_memory.c)" 'target_link_libraries(app PRIVATE timers::timers)' > "$work/app/CMakeLists.txt"
    sed -n 's/^    \(target_compile_definitions(.*)\)$/\1/p' "$page" >> "$work/app/CMakeLists.txt"
    cmake -S "$work/app" -B "$work/app/build"
    cmake --build "$work/app/build"
    "$work/app/build/app" | diff examples/c/static_memory.stdout -
    run nm -u "$work/app/build/timers/libtimers.a"
    [[ $output != *malloc* ]]
}

@test "the wheels take the memory that the page says, with 10, 100 and 1,000 timers" {
    needs cc
    cc $small -o "$work/small" tests/c/small.c "$(by cc)"
    "$work/small" memory > "$work/memory"
    rows Memory | sed -n 's/^TIMERS_[A-Z0-9]* //p' | diff - "$work/memory"
}
@test "and on a Cortex-M4, too" {
    needs_m4
    $m4 $small -o "$work/small" tests/c/small.c "$(by "$m4")"
    on_m4 "$work/small" memory > "$work/memory"
    rows Memory | sed -n 's/^TIMERS_[A-Z0-9]* //p' | diff - "$work/memory"
}

# bound_of CALL COLUMN: of stack, of stack without the smooth wheel, or of instructions
bound_of() { rows "Stack and time" | sed -nE "s/^(.* )?$1( [^0-9]*)? ([0-9]+) ([0-9]+) ([0-9]*).*/\\$(($2 + 2))/p"; }
# no_more_stack COLUMN FLAGS
no_more_stack() {
    needs arm-none-eabi-gcc python3
    $m4 -Os $small $2 -fcallgraph-info=su -c -o "$work/stack.o" generated/timers.c
    tests/stack.py "$work/stack.ci" > "$work/stack"
    most=$(bound_of "each other call" "$1")
    checked=0
    while read -r name bytes; do
        bound=$(bound_of "$name" "$1")
        at_most "${bound:-$most}" "$((bytes + 1))" "$name"
        checked=$((checked + 1))
    done < "$work/stack"
    [ "$checked" -eq "$(sed -n 's/^[a-z].*[ *]\(timers_[a-z_]*\)(.*[,;]$/\1/p' include/timers.h | wc -l)" ]
}
@test "no call takes more stack than the page says" { no_more_stack 1; }
@test "nor without the smooth wheel" { no_more_stack 2 -DTIMERS_NO_SMOOTH; }

by_clang() {
    needs clang ld.lld size
    linker="clang --target=thumbv7em-none-eabi -mcpu=cortex-m4 -fuse-ld=lld" division=
    compiler="${linker% *} -nostdlibinc"
}
# no_more_code ROW FLAGS: than the page says, with the smooth wheel and without
no_more_code() {
    read -r with without < <(rows Code | sed -n "s/^$1 //p")
    linked "$2"
    at_most "$with" "$bytes" "$1"
    linked "$2 -DTIMERS_NO_SMOOTH"
    at_most "$without" "$bytes" "$1 without the smooth wheel"
}
@test "no more code is linked than the page says, by gcc" {
    by_gcc
    for flags in -Os "-Os -flto" -O2; do no_more_code "gcc 12.2 $flags" "$flags"; done
}
@test "and by clang" {
    by_clang
    no_more_code "clang 14 -Oz" -Oz
}
# What a function is for, and the page's words for it.
@test "of the smallest build no part takes more than the page says, and the parts are nearly all" {
    by_gcc
    linked -Os -DTIMERS_NO_SMOOTH
    nm --size-sort -t d "$work/bare" | awk '
        $2 !~ /[tT]/ { next }
        $3 ~ /^__/ { sum["division"] += $1; next }
        $3 ~ /take|tick|sorts|advance|visit/ { sum["ticks"] += $1; next }
        $3 ~ /start/ { sum["start"] += $1; next }
        $3 ~ /stop/ { sum["stop"] += $1; next }
        $3 ~ /timers_new|Buckets_new/ { sum["new"] += $1; next }
        $3 ~ /reserve|make_r|grow|rattle_|give|alloc/ { sum["memory"] += $1; next }
        { sum["rest"] += $1 }
        END { for (part in sum) print part, sum[part] }' > "$work/parts"
    sed -n '/^No option leaves/,/^$/p' "$page" | tr -d '\n,' | sed -nE 's/.* (9600) .*`timers_take` have ([0-9]+).*start has ([0-9]+).*`timers_reserve` ([0-9]+).*`timers_new` ([0-9]+).*stop ([0-9]+).*`__ctzdi2` ([0-9]+)\..*/all \1 ticks \2 start \3 memory \4 new \5 stop \6 division \7/p' |
        xargs -n 2 > "$work/said"
    [ "$(wc -l < "$work/said")" -eq 7 ]
    at_most "$(sed -n 's/^all //p' "$work/said")" "$bytes" all
    while read -r part size; do
        [ "$part" != rest ] || at_most 500 "$size" rest
        [ "$part" = rest ] || at_most "$(sed -n "s/^$part //p" "$work/said")" "$size" "$part"
    done < "$work/parts"
}

@test "without the smooth wheel its table is none, and random calls on the others agree with a sorted list" {
    needs cc
    cat > "$work/none.c" << 'EOT'
#include <timers_desk.h>
#define IS(wanted, call) if ((call) != TIMERS_##wanted) return __LINE__
int main(void)
{
    struct timers timers = TIMERS_INIT;
    struct timers_desk desk = TIMERS_DESK_INIT;
    struct timers_line line = TIMERS_LINE_INIT;
    struct timers_desk_config config = { sizeof config, 0, 10, 10, 10, TIMERS_SMOOTH };
    IS(NO_TABLE, timers_new(&timers, TIMERS_SMOOTH, TIMERS_NEVER));
    IS(OK, timers_new(&timers, TIMERS_WIDE, 0));
    IS(OPEN, timers_new(&timers, TIMERS_SMOOTH, 0));
    IS(DESK_OUT_OF_RANGE, timers_desk_new(&desk, &line, 1, &config));
    config.table = TIMERS_SMALL;
    IS(DESK_OK, timers_desk_new(&desk, &line, 1, &config));
    IS(DESK_OPEN, timers_desk_new(&desk, &line, 1, &config));
    timers_free(&timers), timers_desk_free(&desk), timers_line_free(&line);
    return 0;
}
EOT
    flags="-std=c11 -Wall -Wextra -Werror -pedantic -fsanitize=undefined -fno-sanitize-recover=all -DTIMERS_NO_SMOOTH -Iinclude -pthread"
    cc $flags -c -o "$work/no_smooth.o" generated/timers.c
    cc $flags -o "$work/none" "$work/none.c" "$work/no_smooth.o"
    "$work/none"
    cc $flags -o "$work/driver" tests/driver/*.c "$work/no_smooth.o"
    "$work/driver" timers 100000 3
}

# takes NAME [HELD]: those of the operation, by the difference of 100 and 228 of them
takes() {
    local few many
    few=$(instructions "$work/small" "$1" 100 "${2:-10}")
    many=$(instructions "$work/small" "$1" 228 "${2:-10}")
    echo $(((many - few) / 128 - none))
}
@test "no operation takes more instructions than the page says, however many timers are held" {
    needs_m4
    $m4 -Os $small -o "$work/small" tests/c/small.c generated/timers.c
    none=0
    none=$(takes nothing)
    # tests/costs has each call with fewer and with more timers.
    for name in tick wakeup stop restart take start; do at_most "$(bound_of timers_$name 3)" "$(takes $name 1000)" "$name, of 1,000"; done
    taken=$(takes start)
    at_most "$(bound_of timers_start 3)" "$taken" start
    bound=$(sed -nE 's/.* each in ([0-9]+) instructions.*/\1/p' "$page")
    at_most "$bound" "$(($(takes start+move) - taken))" "a move, which follows a start"
}

@test "a program that has another header with the guard TIMERS_H gets this one" {
    needs cc
    printf '#define TIMERS_H\n#include <timers.h>\nint main(void) { return timers_version() != TIMERS_VERSION_NUMBER; }\n' > "$work/guard.c"
    cc $small -o "$work/guard" "$work/guard.c" "$(by cc)"
    "$work/guard"
}
