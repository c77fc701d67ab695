#!/usr/bin/env bats
# One version everywhere, man pages, which `make` makes, that are clean, and links that lead somewhere. TIMERS names the
# program, by default ./timers.
# shellcheck disable=SC2143  # `! grep` fails no test
load helpers

setup_file() {
    cd "$BATS_TEST_DIRNAME/.." || return
    VERSION=$(cat tools/install/version)
    TIMERS=$(realpath "${TIMERS:-timers}")
    export VERSION TIMERS
}

@test "the program and all files have one version" {
    [ "$("$TIMERS" --version < /dev/null)" = "timers $VERSION" ]
    grep -q "^## $VERSION\b" CHANGELOG.md
    tools/install/date | grep -xE '[0-9]{4}(-[0-9]{2}){2}'
    for page in tools/install/*.[13]; do head -n 1 "$page" | grep -q "^\.TH .* \"$(tools/install/date)\" \"timers $VERSION\""; done
}

# Lines of a source may be longer than 80 bytes, as elsewhere in this repository.
@test "mandoc finds nothing in the man pages" {
    needs mandoc
    for page in tools/install/*.[13]; do
        run mandoc -Tlint "$page"
        [ -z "$(grep -v 'STYLE: input text line longer than 80 bytes' <<< "$output")" ]
    done
}

@test "groff finds nothing in the man pages" {
    needs groff
    for page in tools/install/*.[13]; do
        run groff -man -Tutf8 -ww -z "$page"
        [ "$status" -eq 0 ]
        [ -z "$output" ]
    done
}

# What a text says, a word a line, and what of the first text's words the second has less often.
words() { tr '[:upper:]' '[:lower:]' | tr -c '[:lower:]0-9' '\n' | sed '/^$/d' | sort; }
lost_words() { comm -23 <(words < "$1") <(sed -E -e 's/\\f[BR]//g' -e 's/\\(\(..|[&e])/ /g' -e 's/\\-/-/g' "$2" | words); }

# The first comment of a header but for its first line, and those of its functions.
comments() {
    awk 'NR == 1 { inside = 1; next }
        /^\/\* / { inside = 1; text = "" }
        inside { text = text "\n" $0; if (/\*\/$/) { inside = 0; if (!heads++) print text; else ended = 1 }; next }
        ended && /^TIMERS_C/ { next }
        ended { ended = 0; if (/^(static [A-Za-z_]* )?(enum|struct|void|bool|int|const char|size_t|uint).*[ *]timers_[a-z_]+\(/) print text }' "$1"
}
# The command line in docs/formats.md, without headings, comments and the heads of tables.
command_line() {
    sed -n '/^## The command line/,$p' docs/formats.md | sed -e '/^#/d' -e '/^<!--/d' |
        awk '/^\|---/ { held = ""; next } { if (NR > 1) print held; held = $0 } END { print held }'
}
@test "no word of a header's comments is lost in its man page, nor one of docs/formats.md in timers(1)" {
    for page in tools/install/*.[13]; do
        header=include/$(basename "$page" .3).h
        if [ -e "$header" ]; then comments "$header"; else command_line; fi > "$BATS_TEST_TMPDIR/said"
        [ "$(wc -w < "$BATS_TEST_TMPDIR/said")" -gt 300 ]
        lost=$(lost_words "$BATS_TEST_TMPDIR/said" "$page")
        echo "$page: $lost"
        [ -z "$lost" ]
    done
}

# Of the functions whose comments list statuses. No other comment has a line that begins with one.
@test "each list of statuses in a man page has its title" {
    for header in include/*.h; do
        lists=$(comments "$header" | awk 'BEGIN { RS = "/[*] " } /\n \* TIMERS_[A-Z_]+(, |:|\.| \()/ { count++ } END { print count + 0 }')
        echo "$header: $lists"
        [ "$(grep -cE '^(Errors|Returns):$' "tools/install/$(basename "$header" .h).3")" -eq "$lists" ]
    done
}

# What `whatis` and `apropos` read: a line for each name, with one dash, and what it does.
@test "whatis reads the man pages" {
    needs lexgrog
    for page in tools/install/*.[13]; do
        run lexgrog "$page"
        [ "$status" -eq 0 ]
        [ -z "$(grep -vE '^[^:]*: "timers[a-z_]* - [^"]*"$' <<< "$output"; grep ' - .* - ' <<< "$output")" ]
    done
}

@test "timers(3) names the page of each other header, and each of them names timers(3)" {
    for page in tools/install/timers_*.3; do
        echo "$page"
        grep "^.BR $(basename "$page" .3) (3)" tools/install/timers.3
        grep '^.BR timers (3)' "$page"
    done
}

# Each path that a page links to is a file or folder here, or of a neighbour that is not there.
@test "links lead somewhere" {
    lost='' gone='^$'
    for folder in $(neighbours); do [ -d "$folder" ] || gone+="|^$folder/"; done
    while IFS=: read -r page link; do
        path=$(realpath -ms --relative-to=. "$(dirname "$page")/$link")
        [ -e "$path" ] || [[ $path/ =~ $gone ]] || lost+=" $page:$link"
    done < <(git grep -oE '\]\([^)#]+' '*.md' | sed 's/](//' | grep -vE ':(https|mailto):')
    echo "no such file:$lost"
    [ -z "$lost" ]
}
