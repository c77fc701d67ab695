#!/usr/bin/env bats
# Installs by `make install`, looks at each file, builds with it, and removes it. It runs in copies of this tree that have
# what `make` left here, and without the toolchain. Then it packs a tarball and does the same with that.
# shellcheck disable=SC2013,SC2143
load helpers

setup_file() {
    cd "$BATS_TEST_DIRNAME/.." || return
    needs_built timers build/lib/libtimers.a
    hide_toolchain
    unset PREFIX BINDIR LIBDIR INCLUDEDIR DATADIR MANDIR DOCDIR DESTDIR PKG_CONFIG_PATH
    version=$(cat tools/install/version)
    tarball=timers-$version-linux-$(uname -m).tar.gz
    export version tarball top=$PWD work=$BATS_FILE_TMPDIR
    copy_tree "$work/clone"
    copy_tree "$work/tree"
    mkdir -p "$work/tree/build"
    cp -pR timers "$work/tree/timers"
    cp -pR build/lib "$work/tree/build/lib"
    cp -p tools/install/*.[13] "$work/tree/tools/install"
}
in_tree() { make --no-print-directory -C "$work/tree" "$@"; }
in_clone() { make --no-print-directory -C "$work/clone" "$@"; }
needs_compiler() { needs cc pkg-config readelf; }

# Each installed path of a folder of its own, with its mode, and the link's target or the file of the tree that it is
# a copy of. The names of the functions are those of the header.
wanted_files() {
    local mode path page header function
    cat << EOT
755 bin/timers timers
644 lib/libtimers.a build/lib/libtimers.a
644 lib/libtimers.so.$version build/lib/libtimers.so.$version
link lib/libtimers.so.${version%%.*} libtimers.so.$version
link lib/libtimers.so libtimers.so.${version%%.*}
644 lib/pkgconfig/timers.pc -
644 lib/cmake/timers/timers-config.cmake -
644 lib/cmake/timers/timers-config-version.cmake -
644 share/man/man1/timers.1 tools/install/timers.1
644 share/bash-completion/completions/timers tools/install/completions/timers.bash
644 share/zsh/site-functions/_timers tools/install/completions/_timers
644 share/fish/vendor_completions.d/timers.fish tools/install/completions/timers.fish
644 share/doc/timers/NOTICE generated/NOTICE
644 share/doc/timers/LICENSE-MIT LICENSES/MIT.txt
644 share/doc/timers/LICENSE-APACHE LICENSES/Apache-2.0.txt
644 share/timers/c/timers.c generated/timers.c
644 share/timers/c/timers.h include/timers.h
644 share/timers/c/timers_desk.h include/timers_desk.h
EOT
    for path in CHANGELOG.md docs/{embedding,formats,journal,platforms,porting,server,versions,walkthroughs,wheels}.md; do
        echo "644 share/doc/timers/$path $path"
    done
    for path in include/*.h; do
        page=$(basename "$path" .h).3
        echo "644 $path $path"
        echo "644 share/man/man3/$page tools/install/$page"
        sed -n 's/^[a-z].*[ *]\(timers_[a-z_]*\)(.*/\1/p' "$path" | sort -u | while read -r function; do
            echo "link share/man/man3/$function.3 $page"
        done
    done
    for path in $(of_neighbours include); do
        for header in "$path"/*; do echo "644 include/${header##*/} $header"; done
    done
    for path in $(of_neighbours installed); do DATADIR=share DOCDIR=share/doc/timers "$path" | awk '{ print $1, $3, $2 }'; done
    git ls-files examples | grep -v gitignore | while read -r path; do
        mode=644
        [ "$path" != examples/serve.py ] || mode=755
        echo "$mode share/doc/timers/$path $path"
    done
}
# The same list of what stands below a folder, but for sources: a link's target, or `-`.
found_files() {
    (cd "$1" && find . -type f -printf '%m %P -\n' -o -type l -printf 'link %P %l\n') | sort
}
# A page's text, without the targets of its links.
text_of() { sed -E 's/\[([^]]*)\]\([^)]*\)/\1/g' "$1"; }

# has_all_files ROOT TREE ROW..: ROOT has the wanted files, those of these rows and no other, each a copy of that of TREE,
# pages but for links
has_all_files() {
    { wanted_files; printf '%s\n' "${@:3}"; } | sed '/^$/d' > "$work/wanted"
    awk '{ if ($1 != "link") $3 = "-"; print }' "$work/wanted" | sort | diff - <(found_files "$1")
    while read -r mode path source; do
        if [[ $path == *.md ]]; then
            diff <(text_of "$1/$path") <(text_of "$2/$source")
        elif [ "$mode" != link ] && [ "$source" != - ]; then
            cmp "$1/$path" "$2/$source"
        fi
    done < "$work/wanted"
}
has_folders_for_all() { [ -z "$(find "$1" -type d ! -perm 755)" ]; }

# names_only_what_is_there ROOT: what the installed pages link to, and name of docs/, examples/ and other man pages
names_only_what_is_there() {
    local path page section doc=$1/share/doc/timers
    for page in "$doc"/docs/*.md "$doc"/*.md; do
        for path in $(grep -oE '\]\([^)#]+' "$page" | cut -c 3- | grep -v '^https\?:'); do
            echo "$page links to $path"
            [ -e "${page%/*}/$path" ]
        done
    done
    for path in $(grep -ohE '\b(docs|examples)/[a-zA-Z0-9_/.]*[a-zA-Z0-9_]' "$doc"/docs/*.md "$doc"/*.md "$1"/share/man/man?/*); do
        echo "$path"
        [ -e "$doc/$path" ]
    done
    while read -r page section; do
        [ -e "$1/share/man/man$section/$page.$section" ]
    done < <(sed -n 's/^\.BR \(timers[a-z_]*\) (\([0-9]\)).*/\1 \2/p' "$1"/share/man/man?/*)
}
plays() { "$1/bin/timers" < examples/one_timer | diff examples/one_timer.stdout -; }
pc() { PKG_CONFIG_PATH=$1/lib/pkgconfig pkg-config "${@:2}" timers; }

# A C program by the installed files alone: it needs the soname, so -ltimers found the link and not the archive.
builds_with_the_shared_object() {
    needs_compiler
    # shellcheck disable=SC2046
    cc -std=c11 -o "$work/first" examples/c/first.c $(pc "$1" --cflags --libs)
    readelf -d "$work/first" | grep "NEEDED.*\[libtimers.so.${version%%.*}\]"
    LD_LIBRARY_PATH=$1/lib "$work/first" | diff examples/c/first.stdout -
}
# A project of CMake by the installed files alone, with each of the two targets. Another major version is none, and neither
# is a later minor one.
builds_by_cmake() {
    needs cmake cc readelf
    rm -rf "$work/project"
    mkdir "$work/project"
    cp examples/c/first.c "$work/project"
    cat > "$work/project/CMakeLists.txt" << EOT
cmake_minimum_required(VERSION 3.15)
project(app C)
foreach(other 0.9 1.99 2.0 99)
  find_package(timers \${other} CONFIG QUIET)
  if(timers_FOUND)
    message(FATAL_ERROR "version \${other} was found")
  endif()
endforeach()
find_package(timers $version EXACT CONFIG REQUIRED)
find_package(timers 1.0 CONFIG REQUIRED)
foreach(kind timers static)
  add_executable(of_\${kind} first.c)
  target_link_libraries(of_\${kind} PRIVATE timers::\${kind})
endforeach()
EOT
    cmake -S "$work/project" -B "$work/project/build" -DCMAKE_PREFIX_PATH="$1"
    cmake --build "$work/project/build"
    for kind in timers static; do "$work/project/build/of_$kind" | diff examples/c/first.stdout -; done
    readelf -d "$work/project/build/of_timers" | grep "NEEDED.*\[libtimers.so.${version%%.*}\]"
    [ -z "$(readelf -d "$work/project/build/of_static" | grep libtimers)" ]
}
# refused WORDS COMMAND..: it fails, and says these words
refused() {
    run "${@:2}"
    [ "$status" -ne 0 ]
    grep -F "$1" <<< "$output"
}

# One folder was there before. The mask hides everything from others, which must not matter.
@test "make install, without the toolchain" {
    mkdir -p "$work/prefix/share"
    (umask 077 && in_tree install PREFIX="$work/prefix")
}
@test "installed: each file, mode and link, and folders that all can read" {
    has_all_files "$work/prefix" "$work/tree" "644 share/doc/timers/FOLDERS -"
    has_folders_for_all "$work/prefix"
}
@test "installed: the pages name only what is installed" { names_only_what_is_there "$work/prefix"; }
@test "installed: the program plays a script" { plays "$work/prefix"; }

@test "installed: the soname, and the pkg-config file" {
    needs_compiler
    readelf -d "$work/prefix/lib/libtimers.so" | grep "SONAME.*\[libtimers.so.${version%%.*}\]"
    [ "$(pc "$work/prefix" --modversion)" = "$version" ]
    [ "$(pc "$work/prefix" --variable=prefix)" = "$work/prefix" ]
    [ "$(pc "$work/prefix" --variable=libdir)" = "$work/prefix/lib" ]
    [ "$(pc "$work/prefix" --variable=includedir)" = "$work/prefix/include" ]
}

@test "installed: a project of CMake" { builds_by_cmake "$work/prefix"; }
@test "installed: a C program with the shared object" { builds_with_the_shared_object "$work/prefix"; }

# The archive stands behind no link here, so it is what is linked.
@test "installed: a C program with the archive" {
    needs_compiler
    cc -std=c11 -I"$work/prefix/include" -o "$work/first" examples/c/first.c "$work/prefix/lib/libtimers.a"
    [ -z "$(readelf -d "$work/first" | grep libtimers)" ]
    "$work/first" | diff examples/c/first.stdout -
}

# Without the archive the program still builds: the shared object isn't there in name only.
@test "installed: a C program where there is no archive" {
    rm "$work/prefix/lib/libtimers.a"
    builds_with_the_shared_object "$work/prefix"
}

@test "make uninstall, in a tree in which nothing was built and after two installs, leaves what was there before" {
    in_tree install PREFIX="$work/prefix"
    in_clone uninstall PREFIX="$work/prefix"
    [ "$(find "$work/prefix")" = "$work/prefix"$'\n'"$work/prefix/share" ]
}

# DESTDIR, from the environment, and folders of their own.
@test "DESTDIR stands in front of each path, and in no file" {
    DESTDIR=$work/stage PREFIX=/usr in_tree install LIBDIR=/usr/lib/x86_64-linux-gnu BINDIR=/opt/bin
    cd "$work/stage"
    [ -x opt/bin/timers ]
    [ ! -e usr/bin ]
    [ -f usr/lib/x86_64-linux-gnu/libtimers.a ]
    [ ! -e usr/lib/libtimers.a ]
    # shellcheck disable=SC2016
    grep -x 'libdir=${prefix}/lib/x86_64-linux-gnu' usr/lib/x86_64-linux-gnu/pkgconfig/timers.pc
    grep -x 'prefix=/usr' usr/lib/x86_64-linux-gnu/pkgconfig/timers.pc
    run grep -rF "$work" "$work/stage" --include=*.pc
    [ "$status" -eq 1 ]
}

@test "make uninstall with DESTDIR and folders leaves nothing" {
    DESTDIR=$work/stage PREFIX=/usr in_clone uninstall LIBDIR=/usr/lib/x86_64-linux-gnu BINDIR=/opt/bin
    [ "$(find "$work/stage")" = "$work/stage" ]
}

# Each folder apart from the others, and a file of somebody else's among the pages.
@test "each folder is where its variable says, and make uninstall leaves what is not its own" {
    folders=()
    for name in BINDIR LIBDIR INCLUDEDIR DATADIR MANDIR DOCDIR; do folders+=("$name=$work/apart/$name"); done
    in_tree install PREFIX="$work/apart/PREFIX" "${folders[@]}"
    for path in BINDIR/timers LIBDIR/libtimers.a INCLUDEDIR/timers.h DATADIR/timers/c/timers.h MANDIR/man1/timers.1 \
        MANDIR/man3/timers_start.3 DOCDIR/CHANGELOG.md; do
        echo "$path"
        [ -e "$work/apart/$path" ]
    done
    [ ! -e "$work/apart/PREFIX" ]
    grep -x "includedir=$work/apart/INCLUDEDIR" "$work/apart/LIBDIR/pkgconfig/timers.pc"
    touch "$work/apart/DOCDIR/docs/notes"
    in_clone uninstall PREFIX="$work/apart/PREFIX" "${folders[@]}"
    [ "$(find "$work/apart" -mindepth 1 | sort | paste -sd ' ')" = "$(echo "$work/apart"/DOCDIR{,/docs{,/notes}})" ]
}

@test "the spelling of GNU names the same folders" {
    in_tree install prefix="$work/gnu" libdir="$work/gnu/lib64"
    [ -x "$work/gnu/bin/timers" ]
    [ -e "$work/gnu/lib64/libtimers.a" ]
    in_clone uninstall prefix="$work/gnu" libdir="$work/gnu/lib64"
    [ ! -e "$work/gnu" ]
}

# shellcheck disable=SC2016,SC2088
@test "a PREFIX that is relative, or that a shell would read in another way, is refused" {
    for odd in some/where '~/timers' '/a b' '/a;b' '/a$b'; do
        refused "not an absolute path" env PREFIX="$odd" "$work/tree/tools/install/install"
    done
}

@test "if nothing was built it says so, fails, and installs nothing" {
    refused "is missing" in_clone install PREFIX="$work/none"
    [ ! -e "$work/none" ]
}

@test "if one of the files that were built is missing, it says so, and installs nothing" {
    for file in timers build/lib/libtimers.a "build/lib/libtimers.so.$version" tools/install/{timers.1,timers{,_loop,_desk,_desk_bell}.3}; do
        mv "$work/tree/$file" "$work/kept"
        refused "$file is missing" in_tree install PREFIX="$work/none"
        [ ! -e "$work/none" ]
        mv "$work/kept" "$work/tree/$file"
    done
}
@test "a tarball names the gate's last line if it is one of its commit, and if no file differs from that" {
    cd "$work/tree"
    git init -q && git add -A && git -c user.name=a -c user.email=a@b commit -qm "a tree"
    gate_of() {
        echo "$1 5 passed, 0 failed" > build/verdict
        tools/dist && sed -n 's/^gate       //p' "build/dist/timers-$version/share/doc/timers/BUILT" > "$work/gate"
    }
    gate_of "$(git rev-parse HEAD)"
    grep -x '5 passed, 0 failed' "$work/gate"
    gate_of 0123456
    grep -x 'not run' "$work/gate"
    cp README.md "$work/kept" && echo >> README.md && gate_of "$(git rev-parse HEAD)"
    grep -x 'not run' "$work/gate"
    mv "$work/kept" README.md && rm -rf .git
}
@test "make clean leaves nothing of what was built, and so nothing to install" {
    in_tree clean
    diff <(cd "$work/clone" && find . | sort) <(cd "$work/tree" && find . | sort)
    refused "is missing" in_tree install PREFIX="$work/none"
}

@test "tools/dist packs a tarball, and the same one of the same files" {
    tools/dist
    cp "build/$tarball" "$work/first.tar.gz"
    tools/dist
    cmp "$work/first.tar.gz" "build/$tarball"
}

@test "the tarball is unpacked, and BUILT has version, commit, toolchain, processor and gate" {
    mkdir "$work/dist"
    tar -C "$work/dist" --strip-components=1 -xzf "build/$tarball"
    cd "$work/dist/share/doc/timers"
    grep -x "version    $version" BUILT
    grep -x "$(grep '^toolchain ' "$top/generated/PROVENANCE")" BUILT
    grep -xE "commit     $(git -C "$top" rev-parse HEAD)(, with changes)?" BUILT
    grep -xE "gate       (not run|[0-9]+ passed, .*)" BUILT
    grep -x "processor  $(uname -m)" BUILT
    cmp PROVENANCE "$top/generated/PROVENANCE"
}

@test "the command of its README leaves the modes of folders that were there" {
    mkdir -m 2775 "$work/local" "$work/local/share"
    sed -n "s|^ *\(tar -C \)/usr/local\(.*\)TARBALL  *installs it|\1$work/local\2build/$tarball|p" tools/install/dist_readme | sh
    [ -x "$work/local/bin/timers" ]
    [ "$(stat -c %a "$work/local" "$work/local/share" | uniq)" = 2775 ]
}

@test "from the tarball: each file, mode and link, and folders that all can read" {
    cd "$work/dist/share/doc/timers"
    [ "$(stat -c %a BUILT CITATION.cff PROVENANCE README SECURITY.md | sort -u)" = 644 ]
    rm BUILT CITATION.cff PROVENANCE README SECURITY.md
    cd "$top"
    names_only_what_is_there "$work/dist"
    has_all_files "$work/dist" "$top"
    has_folders_for_all "$work/dist"
}
@test "from the tarball: the program plays a script" { plays "$work/dist"; }
@test "from the tarball: a C program with the shared object" { builds_with_the_shared_object "$work/dist"; }
@test "from the tarball: a moved tree" {
    mv "$work/dist" "$work/moved"
    plays "$work/moved"
    builds_with_the_shared_object "$work/moved"
    builds_by_cmake "$work/moved"
}
