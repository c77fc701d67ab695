#!/usr/bin/env bats
# What is said of licences: each file has one, and all packages say the same.
# shellcheck disable=SC2154
load helpers

setup_file() {
    cd "$BATS_TEST_DIRNAME/.." || return
    export work=$BATS_FILE_TMPDIR
}

# Of a list of licences from before 2024, as Debian 12's, Unicode-3.0 alone is missing. A licence is not used if the neighbour
# that used it is not there.
@test "each file has a licence and a copyright, and each licence has its text (reuse lint)" {
    needs reuse
    copy_tree "$work/tree"
    run reuse --root "$work/tree" lint
    if [ "$status" -ne 0 ]; then
        echo "$output"
        grep -xE '\* Bad licenses: ?(Unicode-3\.0)?' <<< "$output"
        for none in 'Deprecated licenses:' 'Licenses without file extension:' 'Missing licenses:' 'Unused licenses:' 'Read errors: 0'; do
            grep -xE "\* $none ?" <<< "$output" || { [[ $none == Unused* ]] && a_neighbour_is_gone; }
        done
        for all in copyright license; do grep -xE "\* Files with $all information: ([0-9]+) / \1" <<< "$output"; done
    fi
}

@test "the licences in NOTICE are those of LICENSES" {
    squeezed() { tr -s ' \n' ' ' < "$1"; }
    for name in BSD-3-Clause Unicode-3.0; do
        [[ $(squeezed generated/NOTICE) == *"$(squeezed "LICENSES/$name.txt")"* ]]
    done
}

# The expression at the head of timers.c.
@test "the library's licence is one expression in the code and in each package" {
    licence=$(licence)
    [[ $licence == *LicenseRef-Rattle-libraries* ]]
    for file in meson.build tools/install/timers.pc.in generated/README.md .reuse/dep5; do
        echo "$file"
        grep -qF "$licence" "$file"
    done
    grep -qF "$licence AND Unicode-3.0" generated/program.c
}

@test "where people look they read that the licence of parts is not known" {
    for file in README.md generated/README.md tools/install/dist_readme docs/embedding.md CMakeLists.txt meson.build; do
        [ "$(times_said "$file")" -gt 0 ]
    done
}

# The lines of a file that are the toolchain's, and all that are in functions.
lines_of() { tools/origins "$1" | awk '{ all += $3 } $1 ~ /^(core|std.*)$/ { theirs += $3 } END { print theirs, all }'; }
@test "whose functions are in the code is counted" {
    for file in timers.c program.c; do
        grep -xF "    origins    $(tools/origins "generated/$file" | paste -sd ,)" generated/PROVENANCE
    done
    sed '/^\/\* The functions of timers.h: /,$d' generated/timers.c > "$work/wheels.c"
    read -r theirs all <<< "$(lines_of "$work/wheels.c")"
    [ "$theirs" -gt 0 ]
    wheels=$((theirs * 100 / all + 1))
    read -r theirs all <<< "$(lines_of generated/timers.c)"
    grep -qF "In C these parts make up under $wheels %, and under $((theirs * 100 / all + 1)) % with the desk" generated/README.md
}

@test "tools/origins counts functions of ours, of a library, and of a module" {
    cat > "$work/two.c" << 'EOT'
/* std_alloc::vec::Vec::drop */
static void a(void)
{
	if (1) {
	}
}

/* timer_links::ring::grow: crates/timer_links/src/ring.rt */
static void b(void)
{
}
/* by hand */
static void c(void)
{
}
EOT
    printf 'crates 1 4\nstd_alloc 1 6\n' | diff - <(tools/origins "$work/two.c")
    cat > "$work/two.ll" << 'EOT'
define internal i64 @"core::slice::len<u8>"(ptr %0) {
  ret i64 0
}

define void @timers_free(ptr %0) {
entry:
  call void @x()

  ret void
}
EOT
    printf 'core 1 3\ncrates 1 5\n' | diff - <(tools/origins "$work/two.ll")
    run tools/origins
    [ "$status" -eq 2 ]
}
