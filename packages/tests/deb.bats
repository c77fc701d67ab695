#!/usr/bin/env bats
# Makes the Debian packages, and installs, uses and removes them in a clean root. No command here sees the toolchain. The
# clean root is a Debian of the machine's release with compilers, pkg-config and CMake, and comes from the machine's mirrors,
# within an hour.
load ../../tests/helpers

setup_file() {
    cd "$BATS_TEST_DIRNAME/../.." || return
    hide_toolchain
    version=$(cat tools/install/version)
    architecture=$(dpkg --print-architecture) || architecture= # then all is skipped
    export version architecture work=$BATS_FILE_TMPDIR root=$BATS_FILE_TMPDIR/root
    # Builds with -O2, and with variables for debuggers, take twice as long each. Without optimization nothing would be fortified,
    # which lintian tells.
    export DEB_CFLAGS_APPEND="-O1 -g1"
}

needs_debian() { needs dpkg-buildpackage dh; }
needs_cross() {
    [ "$architecture" != arm64 ] || skip "this is that machine"
    needs_debian
    needs aarch64-linux-gnu-gcc qemu-aarch64-static
}
needs_root() {
    needs_debian
    needs chroot
    [ -e "$root/usr/bin/dpkg" ] || skip "no clean root"
}

# has_its_packages FOLDER ARCHITECTURE: three, and for debuggers the symbols of two; those of a candidate have its date
has_its_packages() {
    diff <(cd "$1" && printf '%s\n' *.deb | sed -E "s/_$version(~[0-9]{8})?-1_/ /") - << EOT
libtimers-dev $2.deb
libtimers1-dbgsym $2.deb
libtimers1 $2.deb
timers-dbgsym $2.deb
timers $2.deb
EOT
}

@test "outside of a clone packages/deb says that it needs one, in a line" {
    needs_debian
    copy_tree "$work/copy"
    run "$work/copy/packages/deb"
    [ "$status" -eq 3 ]
    [ "${#lines[@]}" -eq 1 ]
    grep "only a clone" <<< "$output"
}

# Debian's names of licences are others than those at the head of timers.c.
@test "the copyright file has the library's licence, and where people look they read that that of parts is not known" {
    sed -e 's/MIT/Expat/g; s/3-Clause/3-clause/; s/ AND / and /g; s/ OR / or /; s/.*/License: & and Unicode-3.0/' <<< "$(licence)" > "$work/licence"
    grep -qxFf "$work/licence" packages/debian/copyright
    [ "$(times_said packages/debian/copyright)" -gt 0 ]
    [ "$(times_said packages/debian/control)" -eq "$(grep -c ^Package: packages/debian/control)" ]
}

@test "packages are made, source and binary" {
    needs_debian
    packages/deb
    has_its_packages build/deb "$architecture"
}

@test "the original source is what the repository tracks" {
    needs_debian
    diff <(git ls-files -- ':!ports' | sort) <(tar -tzf build/deb/*.orig.tar.gz | sed -n 's|^[^/]*/\(.*[^/]\)$|\1|p' | sort)
}

# field PACKAGE NAME: of its control file
field() { dpkg-deb -f build/deb/"$1"_*.deb "$2"; }
@test "the library is installed for several processors side by side, and headers are beside one of just their version" {
    needs_debian
    for package in libtimers1 libtimers-dev; do [ "$(field "$package" Multi-Arch)" = same ]; done
    [ "$(field libtimers-dev Depends)" = "libtimers1 (= $(field libtimers-dev Version))" ]
}

@test "the pages that timers(3) names are in libtimers-dev, and the examples, which a compiler reads" {
    needs_debian
    dpkg-deb -x build/deb/libtimers-dev_*.deb "$work/dev"
    pages=$(zcat "$work"/dev/usr/share/man/man3/timers*.gz | grep -oh 'share/doc/timers/[a-z/]*\.md' | sort -u)
    grep embedding <<< "$pages"
    for page in $pages; do
        echo "$page"
        [ -e "$work/dev/usr/$page" ]
    done
    for example in $(git ls-files 'examples/c/[a-z]*' bindings/cpp/examples); do
        echo "$example"
        [ -e "$work/dev/usr/share/doc/timers/examples/c/${example##*/}" ]
    done
}

@test "a library that does not link fails the build, and so does a function that it lacks, in a folder with a space" {
    needs_debian
    cp -R "build/deb/timers-$version" "$work/a tree"
    cd "$work/a tree"
    debian/rules override_dh_auto_test
    for library in libtimers.a "libtimers.so.$version"; do
        mv "build/lib/$library" kept
        ar rc "build/lib/$library"
        run debian/rules override_dh_auto_test
        [ "$status" -ne 0 ]
        mv kept "build/lib/$library"
    done
    debian/rules override_dh_auto_install
    [ -x debian/tmp/usr/bin/timers ]
    sed -i '/timers_take;/d' tools/install/timers.map
    CFLAGS=-O0 tools/lib build/lib
    cp "build/lib/libtimers.so.$version" debian/libtimers1/usr/lib/*/
    run dh_makeshlibs --package=libtimers1
    [ "$status" -ne 0 ]
    grep 'timers_take@TIMERS_1' <<< "$output"
}

# Long lines, and what lintian calls an experiment, are left out.
@test "lintian finds nothing" {
    needs_debian
    needs lintian
    run lintian --display-info --pedantic --allow-root build/deb/*.changes
    echo "$output"
    [ "$status" -eq 0 ]
    [ -z "$output" ]
}

@test "packages for arm64 are made" {
    needs_cross
    DEB_CFLAGS_APPEND="-O0 -g1" packages/deb arm64
    has_its_packages build/deb-arm64 arm64
}

# By Multi-Arch: same both may be installed.
@test "the library's packages for both processors have the same files in usr/share" {
    needs_cross
    for package in libtimers1 libtimers-dev; do
        mkdir "$work/$package"
        dpkg-deb -x build/deb/"$package"_*.deb "$work/$package/here"
        dpkg-deb -x build/deb-arm64/"$package"_*.deb "$work/$package/arm64"
        diff -r --no-dereference "$work/$package"/{here,arm64}/usr/share
    done
}

@test "their library is for that processor, and their program plays a script under qemu" {
    needs_cross
    cmp build/deb/timers_*.dsc build/deb-arm64/timers_*.dsc
    for package in build/deb-arm64/*timers[1_]*.deb; do dpkg-deb -x "$package" "$work/arm64"; done
    readelf -h "$work/arm64/usr/lib/aarch64-linux-gnu/libtimers.so.$version" | grep AArch64
    qemu-aarch64-static -L /usr/aarch64-linux-gnu "$work/arm64/usr/bin/timers" < examples/one_timer | diff examples/one_timer.stdout -
}

inside() { timeout 900 chroot "$root" /usr/bin/env -i PATH=/usr/sbin:/usr/bin:/sbin:/bin DEBIAN_FRONTEND=noninteractive "$@"; }
# The root's files, but for the package manager's own and the loader's cache.
files() {
    (cd "$root" && find . -path ./var/lib/dpkg -prune -o -path ./var/log -prune -o -path ./var/cache -prune -o -path ./tmp -prune -o \
        -path ./etc/ld.so.cache -prune -o -print | sort)
}

@test "a clean root installs them" {
    needs_debian
    needs mmdebstrap
    [ "$(id -u)" -eq 0 ] || skip "not root"
    # shellcheck source=/dev/null
    release=$(. /etc/os-release && echo "$VERSION_CODENAME")
    if ! timeout 3600 mmdebstrap --quiet --variant=apt --include=apt-utils,gcc,g++,libc6-dev,make,pkgconf,cmake,dpkg-dev "$release" "$root" 2> "$work/log"; then
        rm -rf --one-file-system "$root"
        skip "no clean root: $(tail -n 1 "$work/log")"
    fi
    files > "$work/before"
    cp build/deb/{timers,libtimers1,libtimers-dev}_*.deb "$root/tmp"
    inside sh -c 'dpkg -i /tmp/*.deb'
}

@test "there the program plays a script, and program and pkg-config file have the version" {
    needs_root
    inside timers < examples/one_timer | diff examples/one_timer.stdout -
    [ "$(inside pkg-config --modversion timers)" = "$version" ]
    [ "$(inside timers --version)" = "timers $version" ]
}

@test "there a C program builds, links with the shared object and runs" {
    needs_root
    # shellcheck disable=SC2016
    inside sh -c 'cd /tmp && cc -o first /usr/share/doc/libtimers-dev/examples/first.c $(pkg-config --cflags --libs timers)'
    inside ldd /tmp/first | grep "libtimers.so.${version%%.*} => /"
    inside /tmp/first | diff examples/c/first.stdout -
}

@test "there are man pages" {
    needs_root
    [ -e "$root/usr/share/man/man1/timers.1.gz" ]
    [ -e "$root/usr/share/man/man3/timers.3.gz" ]
    [ -e "$root/usr/share/man/man3/timers_new.3.gz" ]
}

@test "they are removed, and leave no file" {
    needs_root
    inside dpkg --purge timers libtimers-dev libtimers1
    files | diff "$work/before" -
}

@test "the tests of the source package pass there (autopkgtest)" {
    needs_root
    needs autopkgtest
    # It makes its folder in the root where this machine's TMPDIR says.
    mkdir -p "$root${TMPDIR:-/tmp}"
    run timeout 3600 autopkgtest --no-built-binaries build/deb/{libtimers1,libtimers-dev,timers}_*.deb build/deb/timers_*.dsc -- chroot "$root"
    echo "$output"
    [ "$status" -eq 0 ]
    [ "$(sed '1,/ summary$/d' <<< "$output" | grep -c ' PASS$')" -eq "$(find packages/debian/tests -type f -executable | wc -l)" ]
}
