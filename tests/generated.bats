#!/usr/bin/env bats
# What generated/ says of itself; builds it as other projects do: by hand, with CMake and with Meson. No command here sees the
# toolchain. tests/platforms does so for other processors and systems.
# shellcheck disable=SC2013,SC2030,SC2031,SC2034,SC2086,SC2143,SC2154
load helpers

setup_file() {
    cd "$BATS_TEST_DIRNAME/.." || return
    hide_toolchain
    export top=$PWD work=$BATS_FILE_TMPDIR CC=${CC:-cc} lib=${LIB:-$PWD/build/lib} program=${TIMERS:-$PWD/timers}
}
setup() { set -o pipefail; }
prints_first() { "$@" | diff examples/c/first.stdout -; }

@test "each file has the sum that PROVENANCE says" {
    awk '/^[a-z_]*\.c$/ { name = $1 } $1 == "sha256" { print $2 "  " name }' generated/PROVENANCE > "$work/sums"
    [ "$(wc -l < "$work/sums")" -eq "$(find generated -name '*.c' | wc -l)" ]
    echo "if not: run tools/generate, and commit generated/"
    (cd generated && sha256sum --check --strict "$work/sums")
}

# has_parts FILE PART..: the file has each part of tools/portable as it stands there, but for inline functions that nothing calls
has_parts() {
    local text part
    text=$(cat "generated/$1")
    for part in "${@:2}"; do
        echo "$1: $part"
        [[ $text == *"$(awk 'NR == FNR { has[$0]; next }
            /^INLINE / && !($0 in has) { drops = !/}$/; next }
            drops { drops = !/^}/; next }
            1' "generated/$1" "tools/portable/$part" | cat -s)"* ]]
    done
}
@test "what is by hand in each file is what stands in tools/portable" {
    has_parts timers.c heap.h timers_api.h atomics.h desk_api.h
    has_parts program.c heap.h atomics.h program_os.h program_main.h
}

@test "no path of a machine is in the code" {
    run grep -nE '/(opt|work|home|root|tmp|usr/(bin|lib))/' generated/timers.c generated/program.c
    [ "$status" -eq 1 ]
}

# The libraries of the toolchain that a crate of the product uses, itself or by a crate below.
libraries_of() {
    local name
    for name in $(sed -nE "s/^$1( staticlib)?: //p" crates.txt); do
        if [ -d "crates/$name" ]; then libraries_of "$name"; else echo "$name"; fi
    done
}

@test "NOTICE names each library that is linked" {
    for crate in timer_c timer_desk_c timer_program; do libraries_of $crate; done | sort -u > "$work/libraries"
    grep clap "$work/libraries"
    while read -r name; do
        echo "$name"
        grep -qE "\\b${name/_/[-_]}\\b" generated/NOTICE
    done < "$work/libraries"
}

# by_hand COMPILER SOURCE..: the first program, without a warning
by_hand() {
    needs "${1%% *}"
    $1 -Wall -Wextra -Werror -Iinclude -o "$work/first" "${@:2}"
    prints_first "$work/first"
}
@test "gcc builds a program of it as C99" { by_hand "gcc -std=c99 -pedantic -Wconversion -O2" examples/c/first.c generated/timers.c; }
@test "clang builds a program of it as C99" { by_hand "clang -std=c99 -pedantic -O2" examples/c/first.c generated/timers.c; }
@test "two files are enough without the desk" {
    mkdir "$work/two"
    cp generated/timers.c include/timers.h examples/c/first.c "$work/two"
    (cd "$work/two" && "$CC" -o app first.c timers.c)
    prints_first "$work/two/app"
}
@test "a program may include it, in C and in C++" {
    needs gcc g++
    cat generated/timers.c examples/c/first.c > "$work/whole.c"
    by_hand "gcc -DTIMERS_NO_DESK" "$work/whole.c"
    by_hand "gcc -std=c99 -DTIMERS_STATIC" "$work/whole.c"
    [ -z "$(nm --extern-only --defined-only "$work/first" | grep ' timers_')" ]
    by_hand "g++ -DTIMERS_NO_DESK" "$work/whole.c"
    by_hand "g++ -DTIMERS_STATIC" "$work/whole.c"
}
@test "the C around the translation allocates as it says" {
    build heap.c -O0 && runs
    needs tcc
    tcc -DTIMERS_NO_DESK -Iinclude -o "$work/heap" tests/c/heap.c
    "$work/heap"
}
# of_files COMPILER..: the test of the program's calls of files, in a folder of its own
of_files() {
    needs "$1"
    "$@" -o "$work/files" tests/c/files.c
    rm -rf "$work/of_files"
    mkdir "$work/of_files"
    "$work/files" "$(cd "$work/of_files" && pwd -P)"
}
@test "the program's calls of files are those of the system" {
    of_files gcc -std=c99 -O2 -Wall -Wextra -Werror -pedantic
    of_files gcc -O1 -g1 -fsanitize=address,undefined -fno-sanitize-recover=all
}
@test "and by clang, tcc and musl" {
    of_files clang -std=c99 -Wall -Wextra -Werror -pedantic
    of_files tcc
    of_files musl-gcc -static -std=c99 -O1 -Wall -Wextra -Werror -pedantic
}
@test "and where pointers, or lengths of files too, have 32 bits" {
    of_files i686-linux-gnu-gcc -static -std=c99 -O1 -Wall -Wextra -Werror -pedantic
    of_files i686-linux-gnu-gcc -static -O1 -D_FILE_OFFSET_BITS=32
}

# exports CC FLAGS COUNT: the shared object needs its flag; without it none of its functions is exported
exports() {
    needs "$1"
    "$1" -shared -fPIC $2 -Iinclude -o "$work/exported.so" generated/timers.c -Wl,-z,defs,-z,text
    [ "$(nm -D --defined-only "$work/exported.so" | wc -l)" -eq "$3" ]
}
# The API: what the crates export, and timers_set_allocator. tests/headers.bats compares the names with those of the headers.
functions() { echo $(($(grep -hoE 'extern "C" fn timers_[a-z_]*' crates/timer_c/src/*.rt crates/timer_desk_c/src/*.rt | wc -l) + 1)); }
@test "gcc builds a shared object that exports nothing, and one that exports the API" {
    exports gcc "" 0
    exports gcc -DTIMERS_SHARED "$(functions)"
}
@test "clang builds a shared object that exports nothing, and one that exports the API" {
    exports clang "" 0
    exports clang -DTIMERS_SHARED "$(functions)"
}

# link_time CC: with -flto the calls of the archive are inlined, and without it they are not
link_time() {
    needs "$1"
    run env CC="$1" CPPFLAGS="-DTIMERS_NO_DESK -DGIVEN" CFLAGS=-flto LDFLAGS=-O1 tools/lib "$work/link_time"
    [ "$status" -eq 0 ]
    [ "$(grep -c -e "^+ $1 .* -DGIVEN -flto .*generated/" <<< "$output")" -eq 2 ]
    "$1" -O2 -flto -Iinclude -o "$work/first" examples/c/first.c "$work/link_time/libtimers.a"
    prints_first "$work/first"
    run grep timers_stop <(nm "$work/first")
    [ "$status" -eq 1 ]
    "$1" -O2 -Iinclude -o "$work/first" examples/c/first.c "$lib/libtimers.a"
    grep timers_stop <(nm "$work/first")
}
@test "gcc inlines the calls at link time" { link_time gcc; }
@test "clang inlines the calls at link time" { link_time clang; }

# Linkers differ in their flags. Each flag is tried, and what is refused is not passed.
@test "LLVM's linker builds the shared object, also where each name of the map has to be there" {
    needs clang ld.lld nm readelf
    export CC="clang -Wl,--no-undefined-version" LDFLAGS=-fuse-ld=lld CFLAGS=-O0
    tools/lib "$work/lld"
    [ "$(nm -D "$work/lld/libtimers.so" | grep -c ' T timers_.*@@TIMERS_1$')" -eq "$(functions)" ]
    is_hardened "$work/lld/libtimers.so"
    CPPFLAGS=-DTIMERS_NO_DESK tools/lib "$work/lld"
}
@test "for macOS it builds libtimers.dylib, which exports the API, and a program links with that and the archive" {
    local target path
    needs clang
    for name in ld64.lld llvm-nm llvm-ar; do
        path=$(clang -print-prog-name=$name)
        [ -x "$path" ] || skip "no $name"
    done
    mkdir -p "$work/apple"
    echo 'void *malloc(__SIZE_TYPE__), *realloc(void *, __SIZE_TYPE__); void free(void *), abort(void);' > "$work/apple/stdlib.h"
    echo 'void *memcpy(void *, const void *, __SIZE_TYPE__), *memset(void *, int, __SIZE_TYPE__);' > "$work/apple/string.h"
    echo '#include <timers.h>
int start(void) { return (int)timers_version(); }' > "$work/apple/start.c"
    export CPPFLAGS="-ffreestanding -nostdlibinc -isystem $work/apple" CFLAGS=-O0 AR=$path
    export LDFLAGS="-fuse-ld=lld -nostdlib -Wl,-undefined,dynamic_lookup"
    for target in arm64-apple-macos11 x86_64-apple-macos11; do
        CC="clang --target=$target" tools/lib "$work/apple/lib"
        [ "$("$(clang -print-prog-name=llvm-nm)" -gU "$work/apple/lib/libtimers.dylib" | grep -c ' T _timers_')" -eq "$(functions)" ]
        clang --target=$target $CPPFLAGS $LDFLAGS -Iinclude -shared -o "$work/apple/a" "$work/apple/start.c" "$work/apple/lib/libtimers.a"
        clang --target=$target $CPPFLAGS $LDFLAGS -Iinclude -shared -o "$work/apple/b" "$work/apple/start.c" -L"$work/apple/lib" -ltimers
    done
}
@test "an ar without D makes the archive, and a linker that takes no flag the program" {
    printf '#!/bin/sh\ncase $1 in *D*) exit 1 ;; esac\nexec ar "$@"\n' > "$work/ar"
    printf '#!/bin/sh\ncase "$*" in *-Wl,*) exit 1 ;; esac\nwhile [ "$1" != -o ]; do shift; done\necho > "$2"\n' > "$work/plain"
    chmod 755 "$work/ar" "$work/plain"
    CFLAGS=-O0 AR=$work/ar tools/lib "$work/plain_ar"
    by_hand "cc -O1" examples/c/first.c "$work/plain_ar/libtimers.a"
    CC=$work/plain tools/program "$work/made"
    [ -e "$work/made" ]
    # The archiver is the compiler's, and flags for the linker are at the end.
    printf '#!/bin/sh\ncase "$1 $2" in *-print-prog-name=ar*) echo "%s"; exit ;; *-Wl,*) exit 1 ;; esac\nshift\necho "$@" >> "%s"\nwhile [ "$1" != -o ]; do shift; done\necho > "$2"\n' "$work/of_compiler" "$work/asked" > "$work/tells"
    printf '#!/bin/sh\necho its archiver >> "%s"\nexec ar "$@"\n' "$work/asked" > "$work/of_compiler"
    chmod 755 "$work/tells" "$work/of_compiler"
    (unset AR && CC=$work/tells tools/lib "$work/tells_lib")
    grep -x 'its archiver' "$work/asked"
    CC=$work/tells LDFLAGS=-of_linker tools/program "$work/made"
    grep -e "-o $work/made .* -of_linker\$" "$work/asked"
}

@test "the program and the shared object that make builds are hardened" {
    needs readelf objdump
    is_hardened "$program"
    is_hardened "$lib/libtimers.so"
    [ "$(uname -m)" = x86_64 ] || skip "the flags are looked for in code of x86-64"
    grep -q endbr64 <(objdump -d "$lib/libtimers.so" --disassemble=timers_start)
    grep -qE '(or|mov)[ql]? +\$0x0,(0x[0-9a-f]+)?\(%rsp\)' <(objdump -d "$program")   # a probe of a large frame
}

@test "on a big-endian processor the program has one error, which says so" {
    needs s390x-linux-gnu-gcc
    run s390x-linux-gnu-gcc -fsyntax-only generated/program.c
    [ "$status" -ne 0 ]
    [ "$(grep -c 'error:' <<< "$output")" -eq 1 ]
    grep 'for little-endian processors' <<< "$output"
}

# cmake_app FOLDER OPTION..: the first program, by the lines on standard input
cmake_app() {
    needs cmake
    local folder=$work/$1
    mkdir -p "$folder"
    { printf 'cmake_minimum_required(VERSION 3.15)\nproject(app C)\n'; cat; } > "$folder/CMakeLists.txt"
    printf 'add_executable(app %s)\ntarget_link_libraries(app PRIVATE timers::timers)\n' "$top/examples/c/first.c" >> "$folder/CMakeLists.txt"
    rm -rf "$folder/build"
    cmake -S "$folder" -B "$folder/build" "${@:2}"
    cmake --build "$folder/build"
    prints_first "$folder/build/app"
}
has_licences() {
    cmp generated/NOTICE "$1/NOTICE"
    cmp LICENSES/MIT.txt "$1/LICENSE-MIT"
    cmp LICENSES/Apache-2.0.txt "$1/LICENSE-APACHE"
}
# An installation that CMake's find_package finds, of this version and of no later one.
cmake_finds() {
    needs cmake
    cmake -S . -B "$work/installed/build" -DCMAKE_INSTALL_PREFIX="$work/installed/prefix" "$@"
    cmake --build "$work/installed/build"
    cmake --install "$work/installed/build"
    cmake_app finds -DCMAKE_PREFIX_PATH="$work/installed/prefix" << 'EOT'
foreach(other 0.9 2.0 99)
  find_package(timers ${other} QUIET)
  if(timers_FOUND)
    message(FATAL_ERROR "version ${other} was found")
  endif()
endforeach()
find_package(timers 1.0 CONFIG REQUIRED)
EOT
    # pkg-config finds it, too
    needs pkg-config cc
    # shellcheck disable=SC2046
    cc -o "$work/first" examples/c/first.c $(PKG_CONFIG_PATH=$work/installed/prefix/lib/pkgconfig pkg-config --cflags --libs timers)
    LD_LIBRARY_PATH=$work/installed/prefix/lib prints_first "$work/first"
    diff <(headers) <(ls "$work/installed/prefix/include")
    has_licences "$work/installed/prefix/share/doc/timers"
    rm -rf "$work/installed"
}

@test "a CMake project builds it as a subproject, and installs nothing of it" {
    cmake_app cmake <<< "add_subdirectory($top timers)"
    cmake --install "$work/cmake/build" --prefix "$work/cmake/prefix"
    [ ! -e "$work/cmake/prefix/lib" ]
    [ ! -e "$work/cmake/prefix/include" ]
}
@test "a subproject is installed where the project sets TIMERS_INSTALL, in the folders that it names" {
    local name prefix=$work/installs/prefix
    cmake_app installs "-DCMAKE_INSTALL_PREFIX=$prefix" -DCMAKE_INSTALL_LIBDIR=of/libs -DCMAKE_INSTALL_INCLUDEDIR=of/headers <<< "set(TIMERS_INSTALL ON)
add_subdirectory($top timers)"
    cmake --install "$work/installs/build"
    diff <(headers) <(ls "$prefix/of/headers")
    cmake_app finds_folders "-Dtimers_DIR=$prefix/of/libs/cmake/timers" <<< "find_package(timers 1.0 CONFIG REQUIRED)"
    needs pkg-config
    for name in libdir:libs includedir:headers; do
        [ "$(PKG_CONFIG_PATH=$prefix/of/libs/pkgconfig pkg-config --variable=${name%:*} timers)" = "$prefix/of/${name#*:}" ]
    done
}
@test "as a shared object, too, which is linked as make does" {
    cmake_app cmake -DBUILD_SHARED_LIBS=ON <<< "add_subdirectory($top timers)"
    is_linked_alike "$work/cmake/build/timers/libtimers.so"
}

@test "FetchContent makes it available" {
    cmake_app fetches <<< "include(FetchContent)
FetchContent_Declare(timers SOURCE_DIR $top)
FetchContent_MakeAvailable(timers)"
}

@test "find_package finds an installation" { cmake_finds; }
@test "and one of the shared object" { cmake_finds -DBUILD_SHARED_LIBS=ON; }

meson_app() {
    needs meson ninja
    mkdir -p "$work/meson/subprojects"
    ln -sfn "$top" "$work/meson/subprojects/timers"
    cp examples/c/first.c "$work/meson"
    cat > "$work/meson/meson.build" << 'EOT'
project('app', 'c')
assert(not dependency('timers', version: '>= 99', fallback: 'timers', required: false).found())
executable('app', 'first.c', dependencies: dependency('timers', fallback: 'timers'))
EOT
    rm -rf "$work/meson/build"
    meson setup --wrap-mode=forcefallback "$@" "$work/meson/build" "$work/meson"
    ninja -C "$work/meson/build"
    prints_first "$work/meson/build/app"
}

@test "a Meson project builds it as a subproject" { meson_app; }
@test "a Meson project builds it as a shared object, which is linked as make does" {
    meson_app -Dtimers:default_library=shared
    is_linked_alike "$work/meson/build/subprojects/timers/libtimers.so"
}

@test "with Meson's both libraries the shared object is that, too, and the archive shows its names" {
    needs nm
    meson_app -Dtimers:default_library=both
    is_linked_alike "$work/meson/build/subprojects/timers/libtimers.so"
    [ "$(nm --defined-only --extern-only "$work/meson/build/subprojects/timers/libtimers.a" | grep -c ' T timers_')" -eq "$(functions)" ]
}
@test "pkg-config finds what Meson installs" {
    needs meson ninja pkg-config cc
    meson setup --prefix "$work/meson_prefix" --libdir lib "$work/meson_build" .
    meson install -C "$work/meson_build"
    # shellcheck disable=SC2046
    cc -o "$work/first" examples/c/first.c $(PKG_CONFIG_PATH=$work/meson_prefix/lib/pkgconfig pkg-config --cflags --libs timers)
    prints_first "$work/first"
    diff <(headers) <(ls "$work/meson_prefix/include")
    has_licences "$work/meson_prefix/share/doc/timers"
}

# Most compilers of distributions make code for any address unless they are told otherwise. Others have to be told to.
@test "what CMake and Meson archive goes into a shared object, whatever the compiler makes by itself" {
    needs gcc cmake meson ninja
    export CC="gcc -fno-pie" CFLAGS="-O0 -DTIMERS_NO_DESK"
    cmake -S . -B "$work/any_address/cmake"
    cmake --build "$work/any_address/cmake"
    meson setup "$work/any_address/meson" .
    ninja -C "$work/any_address/meson"
    for tool in cmake meson; do
        gcc -shared -o "$work/any_address/$tool.so" \
            -Wl,-z,text,--whole-archive "$work/any_address/$tool/libtimers.a" -Wl,--no-whole-archive
    done
}

@test "the program is compiled in pieces, which is said, and one that can't be compiled fails" {
    # shellcheck disable=SC2016
    printf '#!/bin/sh\ncase "$*" in *PIECE=7*) exit 1 ;; esac\nwhile [ "$1" != -o ]; do shift; done\necho > "$2"\n' > "$work/fails"
    chmod 755 "$work/fails"
    run env CC="$work/fails" tools/program "$work/failed"
    [ "$status" -ne 0 ]
    [[ $output == "compiling the program in 16 pieces, "*" at a time: $work/fails "* ]]
    [ ! -e "$work/failed" ]
}

# by_copies COMMAND..: with a compiler that only copies what it reads
by_copies() {
    # shellcheck disable=SC2016
    printf '#!/bin/sh\nwhile [ "$1" != -o ]; do shift; done\ncat generated/*.c include/*.h > "$2"\n' > "$work/copies"
    chmod 755 "$work/copies"
    CC=$work/copies AR=ar "$@"
}
@test "make builds the program anew if its code has changed" { builds_anew timers generated/program.c by_copies make timers; }
@test "make builds the libraries anew if their code or a header has changed" {
    builds_anew build/lib/libtimers.so.1 "$sources include/timers_desk.h" by_copies make build/lib/libtimers.a
}
# is_made_anew FILE COMMAND..: by this command, or not by it if the first word is `not`
is_made_anew() {
    local file=$1 wanted=0 before
    shift
    [ "$1" != not ] || { wanted=1 && shift; }
    before=$(stat -c %y "$file")
    "$@"
    run [ "$before" != "$(stat -c %y "$file")" ]
    echo "$file, $*"
    [ "$status" -eq "$wanted" ]
}
@test "other flags make program and libraries anew, and a text that has changed its man page" {
    [ -e "$work/copy" ] || copy_tree "$work/copy"
    cd "$work/copy"
    for file in timers build/lib/libtimers.a; do
        CFLAGS=-DONE by_copies make "$file"
        CFLAGS=-DONE is_made_anew "$file" not by_copies make "$file"
        CFLAGS=-DTWO is_made_anew "$file" by_copies make "$file"
    done
    make pages
    for page in timers.1:docs/formats.md timers.3:include/timers.h timers_loop.3:include/timers_loop.h; do
        is_made_anew "tools/install/${page%:*}" not make pages
        touch "${page#*:}"
        is_made_anew "tools/install/${page%:*}" make pages
    done
}
@test "two builds, in folders of their own, have the same bytes" {
    for folder in one another/one; do
        mkdir -p "$work/twice/$folder"
        cp -R --parents generated/timers.c include tools -t "$work/twice/$folder"
        (cd "$work/twice/$folder" && CFLAGS="-O0 -DTIMERS_NO_DESK" tools/lib "$work/twice/$folder/out")
    done
    diff -r "$work/twice/one/out" "$work/twice/another/one/out"
}
