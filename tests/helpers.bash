# shellcheck shell=bash disable=SC2034,SC2086,SC2119,SC2120,SC2154
# What the tests of this folder share.

# needs TOOL..: skips the test if the machine lacks one of them
needs() {
    local tool
    for tool; do
        command -v "$tool" > /dev/null || skip "no $tool"
    done
}

# needs_built FILE..: what make builds
needs_built() {
    local file
    for file; do [ -e "$file" ] || { echo "$file was not built: make" >&2 && return 1; }; done
}

# neighbours: their folders; of_neighbours FILE: the files of this name in those that are there; a_neighbour_is_gone: one was
# deleted
neighbours() { grep -v '^#' neighbours; }
of_neighbours() {
    local folder
    for folder in $(neighbours); do [ ! -e "$folder/$1" ] || echo "$folder/$1"; done
}
a_neighbour_is_gone() {
    local folder
    for folder in $(neighbours); do [ -d "$folder" ] || return 0; done
    return 1
}

# headers: the names of what is installed of them, also of neighbours that have some
headers() { for folder in include $(of_neighbours include); do ls "$folder"; done | sort; }

# From here on no command sees the toolchain.
hide_toolchain() {
    mkdir -p "$BATS_FILE_TMPDIR/bin"
    printf '#!/bin/sh\necho "rt was called" >&2\nexit 99\n' > "$BATS_FILE_TMPDIR/bin/rt"
    chmod 755 "$BATS_FILE_TMPDIR/bin/rt"
    export PATH=$BATS_FILE_TMPDIR/bin:$PATH
}

# copy_tree FOLDER: the files of the repository as they stand, without what was built and without those that were deleted
copy_tree() {
    mkdir -p "$1"
    comm -z -23 <(git ls-files -zco --exclude-standard | sort -zu) <(git ls-files -zd | sort -z) | xargs -0 cp -pP --parents -t "$1"
}

# What follows builds with $CC or $CXX over $library, files or an archive, into the folder $work.
of_c="-std=c11 -O2 -g1 -Wall -Wextra -Werror -pedantic -Iinclude"
of_cpp="-std=c++17 -O1 -Wall -Wextra -Werror -pedantic -Iinclude"
wraps=-Wl,--wrap=malloc,--wrap=realloc
wrap=$wraps,--wrap=free

# What the headers are compiled with beside a standard.
warnings="-Werror -pedantic -Wall -Wextra -Wswitch-default -Wundef -Wshadow -Wconversion -Wsign-conversion"

# find_source FILE: sets `source`, a file of tests/c or examples/c, or one by its path
find_source() { for source in "tests/c/$1" "examples/c/$1" "$1"; do [ ! -e "$source" ] || break; done; }
# build FILE FLAGS..: a program of tests/c or examples/c, or one by its path, in C or C++
build() {
    local source compiler="$CC $of_c"
    find_source "$1"
    [[ $1 != *.cpp ]] || compiler="$CXX $of_cpp"
    needs "${compiler%% *}"
    # shellcheck disable=SC2086
    $compiler -o "$work/program" "$source" -pthread "${@:2}" $library
}

# with COMPILER SANITIZERS: what is built from here on; the library once
with() {
    needs "$1"
    CC=$1 CXX=${1/gcc/g}++ library=${MADE:-$work}/$1-$2.o
    sanitize="-O0 -fsanitize=$2 -fno-sanitize-recover=all"
    [ ! -e "$library" ] || return 0
    echo 'int main(void) { return 0; }' > "$work/empty.c"
    "$CC" $sanitize -o "$work/empty" "$work/empty.c" && "$work/empty" || skip "$1 has no -fsanitize=$2"
    compile_library
}
compile_library() { "$CC" -std=c99 -g1 -Wall -Wextra -Werror -pedantic -Iinclude $sanitize "$@" -c -o "$library" generated/timers.c; }

# build_driver FILE FLAGS..: the random driver of tests/driver, in which a model is
build_driver() {
    needs "${CC:-cc}"
    # shellcheck disable=SC2086
    ${CC:-cc} $of_c -o "$1" tests/driver/*.c "${@:2}" -pthread
}

# needs_traces [LIBRARY]: the driver as $made/driver, and what wrappers replay, its calls over each table and their answers:
# $made/timers.N and desk.N. They are made once, in the folder MADE, if files of tests share one.
needs_traces() {
    local tables table
    made=${MADE:-$work}
    [ ! -e "$made/driver" ] || return 0
    build_driver "$made/driver" "${1:-generated/timers.c}"
    tables=$(sed -nE 's/^#define TIMERS_TABLES +([0-9]+).*/\1/p' include/timers.h)
    for ((table = 0; table < tables; table++)); do
        "$made/driver" --replay $table timers 20000 > "$made/timers.$table"
        "$made/driver" --replay $table desk 12000 > "$made/desk.$table"
    done
}
# replays FILE..: the program that was built last agrees with each trace
replays() {
    local trace
    for trace; do runs < "$trace"; done
}

# has_rooms COMMAND..: it reads lines with the most timers and the most requests of a desk, and prints the room that it needs:
# for a word to each, and one more
has_rooms() {
    local rooms
    rooms=$(cat << 'EOT'
0 0 1
0 1 2
1 0 2
50 8 59
4294967295 4294967296 8589934592
18446744073709551613 1 18446744073709551615
1 18446744073709551613 18446744073709551615
9223372036854775807 9223372036854775807 18446744073709551615
18446744073709551614 0 18446744073709551615
0 18446744073709551615 18446744073709551615
18446744073709551614 1 18446744073709551615
1 18446744073709551614 18446744073709551615
18446744073709551615 1 18446744073709551615
18446744073709551615 9 18446744073709551615
9 18446744073709551615 18446744073709551615
9223372036854775808 9223372036854775808 18446744073709551615
18446744073709551615 18446744073709551615 18446744073709551615
EOT
)
    cut -d' ' -f1,2 <<< "$rooms" | "$@" | diff <(cut -d' ' -f3 <<< "$rooms") -
}

# times_said FILE: how often it says that the licence of parts is not known
times_said() {
    echo "$1" >&2
    sed 's/^[#* ]*//' "$1" | tr -s ' \n' ' ' | grep -oF "the compiled code has parts of the toolchain's own libraries, whose licence is not known" | wc -l
}

# says TEXT COMMAND..: it fails, and says this
says() {
    run "${@:2}"
    [ "$status" -ne 0 ]
    grep -F -- "$1" <<< "$output"
}

# What builds of the library are made of.
sources="generated/timers.c include/timers.h"
# builds_anew FILE SOURCES COMMAND..: in a copy of the tree, FILE has what each of SOURCES got after a first build
builds_anew() {
    local source name
    export CFLAGS="-O0 -DTIMERS_NO_DESK"
    [ -e "$work/copy" ] || copy_tree "$work/copy"
    cd "$work/copy" || return
    "${@:3}"
    for source in $2; do
        name=${source//[^a-z]/_}
        run grep "anew_$name" $1
        [ "$status" -eq 1 ]
        printf '#ifndef OF_%s\n#define OF_%s\nstatic const char %s[] __attribute__((used)) = "anew_%s";\n#endif\n' $name $name $name $name >> "$source"
        "${@:3}"
        grep "anew_$name" $1
    done
    for source in $2; do cp "$top/$source" "$source"; done
}

# licence: of timers.c, the expression at its head
licence() { sed -n '2s/.*SPDX-License-Identifier: \(.*\) \*\//\1/p' generated/timers.c; }

# runs ARGUMENTS..: the program that was built last, on another processor by $emulator
runs() {
    # shellcheck disable=SC2086
    $emulator "$work/program" "$@"
}

# prints FILE ARGUMENTS..: it prints the text of the file
prints() { runs "${@:2}" | diff "$1" -; }

# notices ARGUMENTS..: its status is above 0
notices() {
    run runs "$@"
    [ "$status" -gt 0 ]
}

# Programs of examples/c that print what stands in their files.
printing="first expired porting record desk_server desk_sockets"

# The most clients of a desk.
most_clients() { sed -nE 's/^#define TIMERS_DESK_CLIENTS ([0-9]+).*/\1/p' include/timers_desk.h; }

# is_hardened FILE: relocations are read only before it runs, and no stack is executable
is_hardened() {
    readelf -d "$1" | grep -wE 'NOW|BIND_NOW'
    readelf -lW "$1" | grep GNU_RELRO
    run grep 'GNU_STACK.*RWE' <(readelf -lW "$1")
    [ "$status" -eq 1 ]
}
# is_linked_alike FILE: a shared object with the name, exports, symbol versions and hardening of make's in $lib
linked() { readelf -d "$1" | grep -o 'SONAME.*' && nm -D --defined-only "$1" | sed 's/^[0-9a-f]* //' | sort; }
is_linked_alike() {
    needs readelf nm
    diff <(linked "$lib/libtimers.so") <(linked "$1")
    is_hardened "$1"
}
