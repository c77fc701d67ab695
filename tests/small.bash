# shellcheck shell=bash disable=SC2034,SC2086,SC2154
# What tests on small machines share: code, data and instructions on a Cortex-M4, and what a page says of them.

small="-std=c11 -Wall -Wextra -Werror -pedantic -DTIMERS_NO_MALLOC -DTIMERS_NO_DESK -Iinclude"
m4="arm-none-eabi-gcc -mcpu=cortex-m4 -mthumb --specs=rdimon.specs -T tests/c/mps2.ld"
needs_m4() { needs arm-none-eabi-gcc qemu-system-arm; }
# on_m4 PROGRAM WORD..: runs it
on_m4() { timeout 600 qemu-system-arm -M mps2-an386 -cpu cortex-m4 -nographic -semihosting $counting -kernel "$1" -append "${*:2}"; }

# rows HEADING: those of the page's table below the heading, with a space between two cells, and without commas
rows() { sed -n "/^## $1\$/,/^## /p" "$page" | sed -nE 's/^\| (.*) \|$/\1/p' | tr -d '`,' | sed 's/ | / /g'; }
# at_most BOUND NUMBER NAME
at_most() {
    echo "$3: at most $1, and it is $2"
    [ "$2" -le "$1" ]
    [ "$2" -gt 0 ]
}

# linked FLAGS: links bare.c, over the library or other timers, by $compiler and $linker. Sets `bytes`, its code and constants,
# and `ram`, its data.
linked() {
    local bare="-ffreestanding -ffunction-sections -fdata-sections $small $*"
    $compiler $bare -fbuiltin -c -o "$work/timers.o" generated/timers.c
    $compiler $bare -fno-builtin -c -o "$work/bare.o" tests/c/bare.c
    $linker -nostdlib -Wl,--gc-sections,-e,main,--unresolved-symbols=ignore-all -o "$work/bare" "$work/timers.o" "$work/bare.o" $division
    read -r bytes ram < <(size "$work/bare" | awk 'NR == 2 { print $1, $2 + $3 }')
}
by_gcc() {
    needs arm-none-eabi-gcc size
    compiler="arm-none-eabi-gcc -mcpu=cortex-m4 -mthumb" division=-lgcc
    linker=$compiler
}

# instructions PROGRAM WORD..: those of a run, each a line of qemu's log
instructions() {
    counting="-singlestep -d exec,nochain -D $work/log" on_m4 "$@"
    grep -c '^Trace' "$work/log"
}
