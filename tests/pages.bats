#!/usr/bin/env bats
# The help and docs/formats.md against each other and against the program, which TIMERS names (by default ./timers); and
# shell completions. timers(1) is made of docs/formats.md.
# shellcheck disable=SC2016,SC2034,SC2046,SC2086
load helpers
bats_require_minimum_version 1.5.0

setup_file() {
    cd "$BATS_TEST_DIRNAME/.." || return
    mkdir "$BATS_FILE_TMPDIR/bin"
    ln -s "$(realpath "${TIMERS:-timers}")" "$BATS_FILE_TMPDIR/bin/timers"
    EVENTS=$(tools/facts SCRIPT | tr ' ' '|')
    read -r FAILED BAD REFUSED < <(tools/facts FAILED BAD REFUSED)
    export EVENTS FAILED BAD REFUSED PATH=$BATS_FILE_TMPDIR/bin:$PATH
}

# has_status STATUS COMMAND..: on the empty script
has_status() {
    run -"$1" timers "${@:2}" < /dev/null
}
# Threads get as little work as the other option allows.
other_option() {
    case "$1 $2" in
        "threads clients") echo "--timers 1" ;;
        "threads timers") echo "--clients 1" ;;
    esac
}

# tools/facts writes ranges and defaults into the program's options and its help.
@test "each option takes both ends of its range and the default, and refuses the numbers beside them" {
    for command in play serve show threads; do
        section=play tried=0
        [ $command != threads ] || section=threads
        while read -r option least most default; do
            [ -n "$default" ] || continue
            other=$(other_option $command "$option")
            # shellcheck disable=SC2086  # two words, or none
            for number in "$least" "$most" "$default"; do has_status 0 $command "--$option=$number" $other; done
            has_status "$REFUSED" $command "--$option=$((most + 1))"
            has_status "$REFUSED" $command "--$option=$((least - 1))"
            tried=$((tried + 1))
        done < <(tools/facts --options $section)
        [ "$tried" -gt 1 ]
    done
}

# At the lengths at which a buffer is full, and beside them.
@test "an argument of any length is read as a whole" {
    for length in 1 255 256 257 1023 1024 1025 4095 4096 4097 100000; do
        argument=$(head -c $length /dev/zero | tr '\0' x)
        run -"$REFUSED" timers play "$argument" < /dev/null
        [[ $output == "timers: $argument: "* ]]
    done
}

# script_status STATUS LINE: of a script of one line
script_status() { run -"$1" timers <<< "$2"; }

# Runs the examples of a text: a line '$ COMMAND' after spaces, and the lines below it up to an empty one or one that is
# indented less. What follows three spaces in a line is a remark. If the command has no input of its own, the lines that
# are events are its input. There has to be one. A command whose line ends with a backslash goes on in the next line.
run_examples() {
    local count=0 line="" command="" indent="" input=$BATS_TEST_TMPDIR/input wanted=$BATS_TEST_TMPDIR/wanted
    while IFS= read -r line; do
        if [[ $command == *\\ ]]; then
            command=${command%\\}$line
        elif [ -z "$command" ] && [[ $line =~ ^(\ *)\$\ (.*timers.*)$ ]]; then
            indent=${BASH_REMATCH[1]}
            command=${BASH_REMATCH[2]//.\/timers/timers}
            : > "$input"
            : > "$wanted"
        elif [ -n "$command" ] && [ -n "$line" ] && [[ $line == "$indent"* ]]; then
            line=$(sed -E 's/([^ ]) {3,}.*/\1/' <<< "${line#"$indent"}")
            if [[ $line =~ ^($EVENTS)(\ [0-9]+)*$ ]]; then
                echo "$line" >> "$input"
            else
                echo "$line" >> "$wanted"
            fi
        elif [ -n "$command" ]; then
            count=$((count + 1))
            echo "$command"
            diff "$wanted" <(bash -c "$command" < "$input" 2>&1)
            command=
        fi
    done < <(cat; echo)
    [ "$count" -gt 0 ]
}

@test "the examples of the help, of docs/formats.md and of docs/wheels.md print what stands below them" {
    for command in "" play show threads check; do
        # shellcheck disable=SC2086
        run_examples < <(timers $command --help)
    done
    run_examples < docs/formats.md
    run_examples < docs/wheels.md
}

@test "the examples of docs/journal.md print what stands below them" {
    page=$PWD/docs/journal.md
    cd "$BATS_TEST_TMPDIR"
    run_examples < "$page"
}

@test "the example of serve has what is written on the left, and what is read on the right" {
    example=$(timers serve --help | sed -n '/^For example/,/^$/p')
    input=$(sed -nE 's/^  ([a-z]+( [0-9]+)*)( {2,}.*)?$/\1/p' <<< "$example")
    [ -n "$input" ]
    diff <(sed -nE 's/^  [^ ].* {2,}([a-z]+( [0-9]+)+)$/\1/p' <<< "$example") <(timers serve <<< "$input" 2>&1)
}

# An example has the words of its row, and numbers and a reason in place of the capitals.
@test "the examples of lines in docs/formats.md have the form of their rows, and those of a script are played" {
    reasons=$(sed -nE '/^### Reasons/,/^## /s/^(\||.*or else as) `([a-z-]*)`.*/\2/p' docs/formats.md | paste -sd '|')
    rows=0
    while IFS=$'\t' read -r row example; do
        rows=$((rows + 1))
        pattern=$(sed -E -e "s/REASON/($reasons)/" -e 's/[A-Z]+/[0-9]+/g' <<< "$row")
        echo "$row: $example"
        [[ $example =~ ^$pattern$ ]]
        if [[ $row =~ ^($EVENTS)(\ [A-Z]+)*$ ]]; then
            script_status 0 "$example"
        fi
    done < <(sed -nE 's/^\| `([a-z ]+[A-Z ]*)` \|.*\| `([^`]*)` \|$/\1\t\2/p' docs/formats.md)
    [ "$rows" -gt 0 ]
}

# What follows in the help and in docs/formats.md is two texts for two readers, so their sentences are not compared. What
# can be false of them is: numbers, options, examples, reasons and errors elsewhere, and here commands, statuses and fields.
@test "the help and docs/formats.md have the same commands, and each heading begins as the help of its command" {
    commands=$(timers help | sed -nE '/^Commands:/,/^$/s/^  ([a-z]+) +(.)/\1: \l\2/p' | grep -v '^help:')
    diff <(sed 's/:.*//' <<< "$commands") <(sed -nE 's/^### `timers ([a-z]+)`: .*/\1/p' docs/formats.md)
    while IFS= read -r heading; do [[ $'\n'$commands == *$'\n'"$heading"* ]]; done < <(sed -nE 's/^### `timers ([a-z]+)`/\1/p' docs/formats.md)
}

# statuses_of COMMAND: the numbers in the part of its help on the exit status
statuses_of() {
    timers $1 --help | sed -n '/exit status is/,/^$/p' | grep -oE '\b[0-9]+\b' | sort -u | paste -sd ' '
}
@test "each exit status of a help is one of docs/formats.md, and the program ends with it" {
    wanted=$(sed -n '/^## Exit status/,$s/^| \([0-9]*\) |.*/\1/p' docs/formats.md)
    for command in "" play serve show threads check; do
        case $command in
            play | show) [ -z "$(statuses_of $command)" ] ;;
            *) [ -n "$(statuses_of $command)" ] ;;
        esac
        for number in $(statuses_of $command); do grep -qx "$number" <<< "$wanted"; done
        has_status 0 $command $(other_option "$command" clients)
        has_status "$REFUSED" ${command:-play} --no-such-option
    done
    for command in play serve show; do run -"$FAILED" timers $command <<< "tick 0"; done
    run -"$FAILED" bash -c "timers threads --clients 1 --timers 1 > /dev/full"
    run -"$BAD" timers check <<< "tick 0"
}

# An example has a remark with its fields, but for `end` and `closed`, of which it says what they count.
@test "the help names the fields of a line as docs/formats.md does" {
    rows=0
    while IFS=$'\t' read -r line fields; do
        rows=$((rows + 1))
        echo "$line: $fields"
        [ "$(wc -w <<< "$line")" -eq "$(($(tr -cd , <<< "$fields" | wc -c) + 2))" ]
        [[ $line =~ ^(end|closed) ]] || grep -qxF "$fields" \
            <(sed -nE "s/^\| \`${line%% *} ([A-Z ]+)\` \|.*/\L\1/p" docs/formats.md | sed 's/ /, /g')
    done < <(for command in "" play; do timers $command --help; done |
        sed -nE 's/^  ([a-z]+( [0-9]+)+) {3,}([a-z]+( [a-z]+)*(, [a-z]+( [a-z]+)*)*)$/\1\t\3/p')
    [ "$rows" -gt 5 ]
}

# Each rule of the paragraph has an example that breaks it. `timers check` names where.
@test "the help has each rule of a line, and a line that breaks one is bad" {
    said=$(timers --help | sed -n '/^Fields are separated/,/^$/p' | paste -sd ' ')
    while IFS='|' read -r rule line; do
        echo "$rule"
        [[ $said == *"$rule"* ]]
        run -"$BAD" timers check < <(printf '%b' "$line")
    done << 'EOT'
separated by exactly one space|tick  1\n
Every line ends with LF, the last one included|tick 1
no CR|tick 1\r\n
no tab|tick\t1\n
no comment|tick 1 # one\n
no empty line|tick 1\n\n
no space at either end of a line| tick 1\n
Words are in lower case|Tick 1\n
A number is decimal, 0 to 1152921504606846975|stop 0 1 1152921504606846976\n
no sign|stop 0 1 +1\n
no leading zero|stop 0 1 01\n
EOT
}

# completed WORD..: what bash offers for the last one
completed() {
    # shellcheck disable=SC2016
    bash -c '. "$0"; COMP_WORDS=("$@"); COMP_CWORD=$(($# - 1)); _timers "$1" "${@: -1}" "${COMP_WORDS[COMP_CWORD - 1]}"
        echo "${COMPREPLY[@]}"' tools/install/completions/timers.bash "$@"
}

@test "bash completes commands, options and values" {
    [ "$(completed timers s)" = "serve show" ]
    [ "$(completed timers -)" = "--help --version" ]
    [ "$(completed timers help th)" = threads ]
    [ -z "$(completed timers help -)" ]
    [ "$(completed timers threads --)" = "--clients --timers --help" ]
    [ "$(completed timers serve --k)" = --keep-going ]
    [ "$(completed timers show --scheme h)" = "hashed hier" ]
    [ -z "$(completed timers show --slots "")" ]
}

# offered TEXT: what fish offers for it
offered() {
    fish -c "source tools/install/completions/timers.fish; complete -C'$1'" | cut -f 1 | sort | paste -sd ' '
}

@test "fish completes commands, options and values" {
    needs fish
    [[ " $(offered "timers s") " == *" serve show "* ]]
    [ "$(offered "timers -")" = "--help --version" ]
    [ "$(offered "timers help th")" = threads ]
    [ "$(offered "timers threads --")" = "--clients --help --timers" ]
    [ "$(offered "timers serve --k")" = --keep-going ]
    [ "$(offered "timers show --scheme h")" = "hashed hier" ]
    [ -z "$(offered "timers show --slots ")" ]
}

# What the function for zsh gives to zsh's own, which take the cursor's place into account.
@test "zsh gets commands, options and values" {
    needs zsh
    # shellcheck disable=SC2016
    given='
        _arguments() {
            print -rl -- "$@"
            if [[ $1 == -C ]]; then state=$wanted; [[ $state == argument ]] && shift words; fi
        }
        _describe() { print -rl -- ${(P)2}; }
        _files() { :; }
        wanted=$1; words=(timers $2); source tools/install/completions/_timers'
    run -0 zsh -f -c "$given" zsh command ""
    [[ $output == *"play:Plays a script"* ]]
    run -0 zsh -f -c "$given" zsh argument threads
    [[ $output == *"--timers=[The number of timers that each client starts, 1 to 10000"*"]:TIMERS:"* ]]
    [[ $output == *"--help[Print help"* ]]
    run -0 zsh -f -c "$given" zsh argument show
    [[ $output == *"]:SCHEME:($(tools/facts SCHEMES))"* ]]
}

@test "each file belongs to one capability, whose lines are counted" {
    needs git
    # without symbolic links
    lines=$(comm -23 <(git ls-files -s | sed '/^120000/d; s/.*\t//' | sort) <(git ls-files -d | sort) |
        grep -v '^generated/' | xargs cat | wc -l)
    [ "$(tools/capabilities | tail -n 1 | tr -cd 0-9)" -eq "$lines" ]
}
