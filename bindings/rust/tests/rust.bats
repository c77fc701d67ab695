#!/usr/bin/env bats
# The crate, as cargo builds, tests, packs and installs it. It compiles the library from generated/. No command needs a network or
# the toolchain. LIB is where the libraries are that `make` built, by default build/lib.
# shellcheck disable=SC2030,SC2031,SC2143,SC2154
load ../../../tests/helpers

setup_file() {
    cd "$BATS_TEST_DIRNAME/../../.." || return
    hide_toolchain
    unset PREFIX BINDIR LIBDIR INCLUDEDIR DATADIR MANDIR DOCDIR DESTDIR
    export top=$PWD work=$BATS_FILE_TMPDIR lib=${LIB:-$PWD/build/lib}
    export library=$lib/libtimers.a
    needs_built "$library"
    # The C of a packed crate is compiled as users compile it; elsewhere it is not optimized.
    # Nobody debugs what is built here.
    export CARGO_TARGET_DIR=$work/cargo CFLAGS=-O0 CARGO_PROFILE_DEV_DEBUG=0 CARGO_INCREMENTAL=0
}

# needs_cargo: the crate for Rust, by its manifest $rust, without a network; skips the test without a Rust that is as new as the
# crate needs it, or without the crate cc
needs_cargo() {
    { command -v rustc && cargo --version; } > /dev/null 2>&1 || skip "no cargo"
    oldest=$(sed -n 's/^rust-version = "\(.*\)"$/\1/p' bindings/rust/Cargo.toml)
    printf '%s\n' "$oldest" "$(rustc --version | cut -d ' ' -f 2)" | sort -CV || skip "rustc is older than $oldest"
    rust=$work/rust/Cargo.toml
    if [ -e /usr/share/cargo/registry ]; then # Debian's crates
        export CARGO_HOME=$work/cargo_home
        mkdir -p "$CARGO_HOME"
        printf '[source.crates-io]\nreplace-with = "debian"\n[source.debian]\ndirectory = "/usr/share/cargo/registry"\n' > "$CARGO_HOME/config.toml"
    fi
    [ -e "$rust" ] || bindings/rust/crate "$work/rust"
    cargo fetch --quiet --offline --manifest-path "$rust" 2> /dev/null || skip "no crate cc: librust-cc-dev"
}

egg_and_tea() { printf '240: egg\n300: tea\n'; }

# of_crate WORD..: a command of cargo for the crate, without a network
of_crate() { cargo "$1" --quiet --offline --manifest-path "$rust" "${@:2}"; }

@test "cargo runs the examples of the crate" {
    needs_cargo
    of_crate run --example first > "$work/out"
    egg_and_tea | diff - "$work/out"
    of_crate run --example desk > "$work/out"
    printf '240: 8\n300: 7\n' | diff - "$work/out"
    # A round trip takes 50 ms. An attempt waits 200, 400, 800, 1600 or 3200 ms: of egg three are in vain, of call all.
    of_crate run --example retries > "$work/out"
    printf '%s\n' '50 ms: tea has arrived, at attempt 1' '1450 ms: egg has arrived, at attempt 4' '6200 ms: call is given up' |
        diff - "$work/out"
    # After a pause of the machine both futures may be ready at once.
    of_crate run --example sleep > "$work/out"
    printf '%s\n' egg tea | diff - <(sort "$work/out")
    # On a machine that stands still one of those who talk may be silent for too long, too.
    of_crate run --example idle_server > "$work/out"
    printf 'client %d was silent for too long\n' 0 2 4 | diff - <(grep -E '^client [024] ' "$work/out")
}

# What it was linked with needs no library beside it: cargo alone sets a path for those.
@test "a program of cargo runs by itself" {
    needs_cargo
    of_crate build --examples
    "$work/cargo/debug/examples/first" > "$work/out"
    egg_and_tea | diff - "$work/out"
    "$work/cargo/debug/examples/desk" > "$work/out"
}

@test "clippy has no warning about the crate, with std and without" {
    needs_cargo
    needs cargo-clippy
    of_crate clippy --all-targets -- -D warnings
    of_crate clippy --no-default-features --tests -- -D warnings
}
@test "the crate is formatted" {
    needs_cargo
    needs cargo-fmt
    cargo fmt --check --manifest-path bindings/rust/Cargo.toml
}
@test "rustdoc has no warning about the crate, and each item has a text" {
    needs_cargo
    needs rustdoc
    RUSTDOCFLAGS="-D warnings -D missing_docs" of_crate doc
    grep -F 'Timers that own their values' "$work/cargo/doc/timers/index.html"
}

# An index of our own stands for a registry's. It is empty, and nothing is sent.
@test "the crate is packed, what was packed is built, and all but the upload is done" {
    needs_cargo
    needs git
    git init --quiet "$work/index"
    printf '{"dl":"file://%s/none","api":"file://%s/none"}\n' "$work" "$work" > "$work/index/config.json"
    git -C "$work/index" add config.json
    git -C "$work/index" -c user.name=index -c user.email=index@localhost commit --quiet --message index
    bindings/rust/crate "$work/to_publish"
    cargo publish --dry-run --allow-dirty --manifest-path "$work/to_publish/Cargo.toml" --index "file://$work/index" > "$work/out" 2>&1 ||
        { cat "$work/out" && false; }
    grep 'Verifying timers' "$work/out"
    grep 'aborting upload due to dry run' "$work/out"
}

# unpacks_crate: unpacks the crate's file into $crate, where nothing else is
unpacks_crate() {
    unset CFLAGS
    crate=$work/unpacked/timers-$(cat tools/install/version)
    if [ ! -e "$crate" ]; then
        bindings/rust/crate "$work/to_pack"
        cargo package --quiet --offline --no-verify --allow-dirty --manifest-path "$work/to_pack/Cargo.toml"
        mkdir "$work/unpacked"
        tar -C "$work/unpacked" -xf "$work/cargo/package/${crate##*/}.crate"
    fi
}
@test "the crate has the version and the licence of the library" {
    grep -Fx "version = \"$(cat tools/install/version)\"" bindings/rust/Cargo.toml
    grep -F "$(licence)" bindings/rust/Cargo.toml
}
@test "a packed crate has the C of the repository, and the licences" {
    needs_cargo
    unpacks_crate
    cmp generated/timers.c "$crate/c/timers.c"
    cmp include/timers.h "$crate/c/timers.h"
    cmp include/timers_desk.h "$crate/c/timers_desk.h"
    for name in generated/NOTICE LICENSES/LicenseRef-Rattle-libraries.txt; do cmp "$name" "$crate/${name##*/}"; done
    cmp LICENSES/MIT.txt "$crate/LICENSE-MIT"
    cmp LICENSES/Apache-2.0.txt "$crate/LICENSE-APACHE"
}
@test "the tests of a packed crate pass, and so does each program in its README and its pages" {
    needs_cargo
    needs rustdoc
    unpacks_crate
    cargo test --quiet --offline --manifest-path "$crate/Cargo.toml"
    [ "$(grep -c '^```' "$crate/README.md")" -eq 14 ] # four programs, and three texts for cargo
    [ "$(grep -cx '```rust' "$crate/README.md")" -eq 4 ]
}
@test "a program that depends on a packed crate builds and runs" {
    needs_cargo
    unpacks_crate
    mkdir -p "$work/app/src"
    cp bindings/rust/examples/first.rs "$work/app/src/main.rs"
    printf '[package]\nname = "app"\nversion = "1.0.0"\nedition = "2021"\n[dependencies]\ntimers = { path = "%s" }\n' "$crate" > "$work/app/Cargo.toml"
    CFLAGS=-O0 cargo run --quiet --offline --manifest-path "$work/app/Cargo.toml" > "$work/out"
    egg_and_tea | diff - "$work/out"
}

# Without std the crate has an allocator of its own; the values are the same.
@test "each value in Rust comes back or is dropped, under valgrind, without std" {
    needs_cargo
    needs valgrind
    leaks=definite,indirect # others are std's own: of the threads of tests
    valgrind="valgrind -q --leak-check=full --show-leak-kinds=$leaks --errors-for-leak-kinds=$leaks --error-exitcode=9"
    of_crate test --test values --test edges --no-default-features --config "target.'cfg(all())'.runner='$valgrind'" -- --test-threads 1
}

# A program that has no std and 64 KiB in all: it would not link if the crate had a std, and the C takes none from elsewhere.
@test "without std the crate is for programs without std" {
    needs_cargo
    needs nm
    of_crate test --no-default-features --tests
    mkdir -p "$work/bare/src"
    cat > "$work/bare/Cargo.toml" << EOT
[package]
name = "bare"
version = "1.0.0"
edition = "2021"
[profile.dev]
panic = "abort"
[dependencies]
timers = { path = "$PWD/bindings/rust", default-features = false }
EOT
    cat > "$work/bare/src/main.rs" << 'EOT'
#![no_std]
#![no_main]
use core::alloc::{GlobalAlloc, Layout};
use core::cell::UnsafeCell;
use core::ffi::c_int;
use core::time::Duration;
use timers::{at_least, Tick, Timers};

#[link(name = "c")]
unsafe extern "C" {
    fn abort() -> !;
}

/// All memory there is. What was given back is not used again.
struct Bump(UnsafeCell<[u64; 8192]>, UnsafeCell<usize>);
unsafe impl Sync for Bump {}
unsafe impl GlobalAlloc for Bump {
    unsafe fn alloc(&self, layout: Layout) -> *mut u8 {
        let (begin, used) = (self.0.get().cast::<u8>(), unsafe { &mut *self.1.get() });
        let at = *used + begin.wrapping_add(*used).align_offset(layout.align());
        *used = at + layout.size();
        if *used > 65536 { core::ptr::null_mut() } else { begin.wrapping_add(at) }
    }
    unsafe fn dealloc(&self, _: *mut u8, _: Layout) {}
}
#[global_allocator]
static ALLOCATOR: Bump = Bump(UnsafeCell::new([0; 8192]), UnsafeCell::new(0));

#[panic_handler]
fn panic(_: &core::panic::PanicInfo) -> ! {
    unsafe { abort() }
}
#[no_mangle]
extern "C" fn rust_eh_personality() {} // alloc names it, and nothing unwinds here

#[no_mangle]
extern "C" fn main() -> c_int {
    let mut timers = Timers::new().unwrap();
    while timers.start(at_least(Duration::from_secs(3), Duration::from_secs(1)), 5).is_ok() {}
    let used = unsafe { *ALLOCATOR.1.get() }; // C has refused, or the values
    if used > 65536 && timers.len() > 100 { timers.take(Tick(4)).map_or(0, |timer| timer.value) } else { 0 }
}
EOT
    run cargo run --quiet --offline --manifest-path "$work/bare/Cargo.toml"
    [ "$status" -eq 5 ]
    run grep -wE 'malloc|realloc|free' <(nm -u "$work/cargo/debug/bare")
    [ "$status" -eq 1 ]
}

@test "the crate is not packed without its C, and the repository has no links" {
    needs_cargo
    cp -R bindings/rust "$work/alone"
    run cargo package --quiet --offline --allow-dirty --manifest-path "$work/alone/Cargo.toml"
    [ "$status" -ne 0 ]
    [[ $output == *"timers.c is not there: bindings/rust/crate makes the folder to pack"* ]]
    diff /dev/null <(git ls-files --stage | sed -n 's/^120000.*\t//p')
}

# The build script by itself, as cargo runs it for another processor.
@test "the build script compiles for other processors" {
    needs_cargo
    needs readelf aarch64-linux-gnu-gcc
    of_crate build --target-dir "$work/script"
    export HOST=x86_64-unknown-linux-gnu TARGET=aarch64-unknown-linux-gnu OUT_DIR=$work CARGO_MANIFEST_DIR=$work/rust
    CC=false CC_aarch64_unknown_linux_gnu=aarch64-linux-gnu-gcc "$work"/script/debug/build/timers-*/build-script-build > "$work/out"
    grep -x "cargo:rustc-link-lib=static=timers" "$work/out"
    [ -e "$(sed -n 's/^cargo::metadata=include=//p' "$work/out")/timers.h" ]
    readelf -h "$work/libtimers.a" | grep AArch64
}

# over_lib WORD..: a command of cargo for the crate, over the archive in $lib in place of what its build script compiles
over_lib() {
    needs_cargo
    target=target.$(rustc -vV | sed -n 's/^host: //p').timers
    cargo "$1" --quiet --offline --manifest-path "$rust" --target-dir "$work/over_lib" \
        --config "$target.rustc-link-search=['$lib']" --config "$target.rustc-link-lib=['static=timers']" "${@:2}"
}
@test "random calls have the answers of C, and values come back" {
    needs_cargo
    needs_traces "$library"
    TIMERS_TRACES=$made over_lib test --tests -- --include-ignored
}
@test "the room that a desk needs is the sum of C++, and does not wrap around" {
    over_lib build
    rustc --edition 2021 -D warnings --extern "timers=$work/over_lib/debug/libtimers.rlib" -o "$work/program" - << 'EOT'
fn main() {
    for line in std::io::stdin().lines() {
        let numbers: Vec<u64> = line.unwrap().split(' ').map(|number| number.parse().unwrap()).collect();
        println!("{}", timers::desk::Config::new(1, numbers[0], numbers[1]).room);
    }
}
EOT
    has_rooms "$work/program"
}
@test "misuses don't compile" {
    needs_cargo
    cargo build --quiet --offline --manifest-path "$rust" --target-dir "$work/cargo"
    misuse() {
        rustc --edition 2021 -A unexpected_cfgs --emit=metadata --extern "timers=$work/cargo/debug/libtimers.rlib" -o "$work/misuse" \
            bindings/rust/tests/misuse/misuse.rs "$@"
    }
    misuse
    sed -n 's/^ *#\[cfg(\([a-z_]*\))\] \/\/ \(.*\)$/\1 \2/p' bindings/rust/tests/misuse/misuse.rs > "$work/misuses"
    [ "$(wc -l < "$work/misuses")" -eq 17 ]
    while read -r name text; do says "$text" misuse --cfg "$name"; done < "$work/misuses"
}
@test "cargo builds the library anew if its code or a header has changed" {
    needs_cargo
    builds_anew "build/cargo/debug/build/timers-*/out/libtimers.a" "$sources" \
        cargo build --offline --manifest-path bindings/rust/Cargo.toml --target-dir build/cargo
}

# What `make` built is installed in $work/prefix.
@test "installed: the crate" {
    needs_cargo
    PREFIX=$work/prefix tools/install/install
    mkdir -p "$work/of_installed/src"
    cp bindings/rust/examples/first.rs "$work/of_installed/src/main.rs"
    printf '[package]\nname = "app"\nversion = "1.0.0"\nedition = "2021"\n[dependencies]\ntimers = { path = "%s" }\n' "$work/prefix/share/timers/rust" \
        > "$work/of_installed/Cargo.toml"
    chmod -R a-w "$work/prefix/share/timers/rust"
    cargo run --quiet --offline --manifest-path "$work/of_installed/Cargo.toml" > "$work/out"
    chmod -R u+w "$work/prefix/share/timers/rust"
    egg_and_tea | diff - "$work/out"
}
@test "installed: the crate over the shared object, by the configuration in its README" {
    needs_cargo
    cd "$work/of_installed"
    mkdir .cargo
    sed -n '/^\[target/,/^```/p' "$work/prefix/share/timers/rust/README.md" | sed -e '/^```/d' -e "s|/usr/local/lib|$work/prefix/lib|" \
        -e "s|x86_64-unknown-linux-gnu|$(rustc -vV | sed -n 's/^host: //p')|" > .cargo/config.toml
    cargo build --quiet --offline --target-dir target
    LD_LIBRARY_PATH=$work/prefix/lib ldd target/debug/app | grep "$work/prefix/lib/libtimers.so"
    LD_LIBRARY_PATH=$work/prefix/lib target/debug/app > "$work/out"
    egg_and_tea | diff - "$work/out"
}
