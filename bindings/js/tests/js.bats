#!/usr/bin/env bats
# The package for JavaScript: as npm packs and installs it, in node and in a browser. Nothing needs a registry.
# shellcheck disable=SC2154
load ../../../tests/helpers

setup_file() {
    cd "$BATS_TEST_DIRNAME/../../.." || return
    hide_toolchain
    export work=$BATS_FILE_TMPDIR
    export npm_config_cache=$work/npm npm_config_offline=true npm_config_audit=false npm_config_fund=false npm_config_update_notifier=false
}

# needs_package: a packed package in $packed, installed for $app, which is a folder of its own with programs; skips the test
# if it can't be built here
needs_package() {
    needs node npm clang wasm-ld
    [ "$(node -p 'parseInt(process.versions.node)')" -ge 20 ] || skip "node is older than 20"
    tree=$work/tree app=$work/app packed=$work/libtimers-$(cat tools/install/version).tgz
    [ ! -e "$app" ] || return 0
    echo 'int main(void) { return 0; }' > "$work/empty.c"
    clang --target=wasm32-wasi -o "$work/empty.wasm" "$work/empty.c" 2> "$work/errors" || skip "no C library: $(head -n 1 "$work/errors")"
    copy_tree "$tree"
    (cd "$tree/bindings/js" && npm pack --pack-destination "$work")
    mkdir "$work/new"
    (cd "$work/new" && echo '{}' > package.json && npm install "$packed")
    cp bindings/js/tests/*.mjs "$work/new"
    # Each block of JavaScript in the README is a program, and the text after it is what that prints.
    awk -v to="$work/new/readme" '/^```js$/ { file = to (++count) ".mjs"; next } /^```text$/ { file = to count ".txt"; next }
        /^```/ { file = "" } file { print > file }' bindings/js/README.md
    mv "$work/new" "$app"
}

@test "npm packs the files that package.json names, licences too, and a module that imports nothing" {
    needs_package
    { node -p "require('./bindings/js/package.json').files.join('\n')" && echo package.json; } | sed 's/^/package\//' | sort |
        diff - <(tar -tf "$packed" | sort)
    for name in generated/NOTICE LICENSES/LicenseRef-Rattle-libraries.txt; do cmp "$name" "$app/node_modules/libtimers/${name##*/}"; done
    cmp LICENSES/MIT.txt "$app/node_modules/libtimers/LICENSE-MIT"
    cmp LICENSES/Apache-2.0.txt "$app/node_modules/libtimers/LICENSE-APACHE"
    [ "$(node -p "require('$app/node_modules/libtimers/package.json').version")" = "$(cat tools/install/version)" ]
    grep -F "$(licence)" bindings/js/package.json
    [ "$(cd "$app" && node -p "WebAssembly.Module.imports(new WebAssembly.Module(fs.readFileSync(require.resolve('libtimers/timers.wasm')))).length")" = 0 ]
}
@test "the README's programs print what it says" {
    needs_package
    for number in 1 2; do node "$app/readme$number.mjs" | diff "$app/readme$number.txt" -; done
    [ ! -e "$app/readme3.mjs" ]
}
@test "random calls have the answers of C" {
    needs_package
    needs_traces
    cp "$made/timers.0" "$app/timers.trace"
    node "$app/replay.mjs"
}
@test "both ends of each range: what is refused changes nothing, and what is gone is not referred to" {
    needs_package
    node --expose-gc "$app/edges.mjs"
}
@test "memory that runs out changes nothing, and what is freed or forgotten is used again" {
    needs_package
    cp -R "$app" "$work/small"
    "$tree/bindings/js/build" -Wl,--max-memory=1048576
    cp "$tree/bindings/js/timers.wasm" "$work/small/node_modules/libtimers/"
    node --expose-gc "$work/small/small.mjs"
}
@test "in a browser the README's program and random calls do the same" {
    needs_package
    needs chromedriver
    /usr/bin/python3 -c 'import selenium' 2> /dev/null || skip "no python3-selenium"
    needs_traces
    cp "$made/timers.0" "$app/timers.trace"
    bindings/js/tests/in_browser.py "$app" readme1.mjs replay.mjs timers.trace > "$work/out"
    { cat "$app/readme1.txt" && echo "the calls of the trace have their answers"; } | diff - "$work/out"
}

@test "tsc takes the README's program, and refuses values of another type" {
    needs_package
    needs tsc
    cp "$app/readme1.mjs" "$app/readme1.mts"
    cat > "$app/wrong.mts" << 'END'
import { Timers } from "libtimers";
const timers = new Timers<string>();
timers.start(1, 2);
timers.stop(7);
export const timer: { value: string } = timers.take(1);
export const value: string = timers.stop(timers.setAt(null, 1, "a"));
END
    cd "$app"
    run tsc --noEmit --strict --module node16 --moduleResolution node16 --target es2022 --lib es2022,dom readme1.mts wrong.mts
    grep -oE '^[a-z0-9]+\.mts\([0-9]+' <<< "$output" | diff <(printf 'wrong.mts(%d\n' 3 4 5) -
}
