#!/usr/bin/env bats
# The worked examples with each scheme, and what arguments are read as, by the program that TIMERS names (by default
# ./timers). An input is a file: what a call leaves unread is read by `cat` after it.
bats_require_minimum_version 1.5.0

setup_file() {
    "$BATS_TEST_DIRNAME/../tools/facts" --names > "$BATS_FILE_TMPDIR/names"
    schemes=$("$BATS_TEST_DIRNAME/../tools/facts" SCHEMES)
    clients=$("$BATS_TEST_DIRNAME/../tools/facts" MAX_CLIENTS)
    export schemes clients
}
setup() {
    TIMERS=$(realpath "${TIMERS:-timers}")
    EXAMPLES=$BATS_TEST_DIRNAME/../examples
    cd "$BATS_TEST_TMPDIR" || return
}

# In arguments, inputs and outputs names as {NoSuch} and {LAST} stand for words and limits.
put_names() { LC_ALL=C sed -f "$BATS_FILE_TMPDIR/names"; }
# with_names TEXT: the text, its escapes read. Most have no name, and thousands are written.
with_names() {
    if [[ $1 == *"{"* ]]; then printf '%b' "$1" | put_names; else printf '%b' "$1"; fi
}
# named FILE TEXT: the file has this text
named() { cmp "$1" <(with_names "$2"); }
# leaves STATUS ARGUMENTS OUTPUT ERRORS: a call that reads the file has this status and writes these texts
leaves() {
    local status=0 wanted=$1 arguments=$2
    [[ $1 != *"{"* ]] || wanted=$(put_names <<< "$1")
    [[ $2 != *"{"* ]] || arguments=$(put_names <<< "$2")
    # shellcheck disable=SC2086  # words
    "$TIMERS" $arguments < input > output 2> errors || status=$?
    [ "$status" -eq "$wanted" ] && named output "$3" && named errors "$4" && return
    echo "timers $2: status $status"
    return 1
}

# gives STATUS ARGUMENTS INPUT OUTPUT [ERRORS]: the same with this input
gives() {
    with_names "$3" > input
    leaves "$1" "$2" "$4" "${5:-}" && return
    echo "for $3"
    return 1
}

# row NAME OPTIONS SCRIPT TEXT..: played and served with each scheme, whose wheels may have any number of slots. OWN_LAST is
# the scheme's last tick.
row() {
    local scheme verb last text
    text=$(printf %s "${@:4}")
    for scheme in $schemes "hashed --slots 1" "hashed --slots 8" "hashed --slots {MAX_SLOTS}"; do
        last=LAST_${scheme%% *}
        for verb in play serve; do
            gives 0 "$verb --scheme $scheme ${2/OWN_LAST/$last}" "$3" "${text//OWN_LAST/$last}"
        done
    done
}
# example NAME OPTIONS: a script of examples/, with the output there
example() { row "$1" "$2" "$(cat "$EXAMPLES/$1")\\n" "$(cat "$EXAMPLES/$1.stdout")\\n"; }
clock_row() {
    gives 0 "play --scheme clock $2" "$3" "$(printf %s "${@:4}")"
    gives 0 "serve --scheme clock $2" "$3" "$(printf %s "${@:4}")"
}

@test "worked examples give their text with each scheme" {
    for name in one_timer stop_middle numbering close rounds migration rollover moving push_back retransmission; do
        example $name ''
    done
    example clock_face '--first-tick 987870'
    row empty '' '' 'end 0 0\n'
    row two_moves '' 'start 0 1 4161 1\ntick 4161\n' 'started 0 1 1 4161\nexpired 4161 0 1 1\nend 4161 0\n'
    row spread '' 'start 0 1 3661 1\ntick 3600\nstart 1 1 61 2\ntick 61\n' \
        'started 0 1 1 3661\nstarted 1 1 2 3661\nexpired 3661 0 1 1\nexpired 3661 1 2 2\nend 3661 0\n'
    row stop_twice '' 'start 0 1 5 0\nstop 0 2 1\nstop 0 3 1\ntick 5\n' \
        'started 0 1 1 5\nstopped 0 2 1\nrefused 0 3 {NoSuch}\nend 5 0\n'
    row zero_interval '' 'start 0 1 0 9\nstart 0 2 1 9\ntick 1\n' \
        'refused 0 1 {ZeroInterval}\nstarted 0 2 1 1\nexpired 1 0 1 9\nend 1 0\n'
    row clock_end '--first-tick {OWN_LAST-1}' 'start 0 1 2 5\nstart 0 2 1 5\ntick 5\n' \
        'refused 0 1 {TooLate}\nstarted 0 2 1 {OWN_LAST}\nexpired {OWN_LAST} 0 1 5\n' \
        'tick refused {ClockEnd}\nend {OWN_LAST} 0\n'
    row capacity '--capacity 1' 'start 0 1 1 4\nstart 0 2 1 4\ntick 1\nstart 0 3 2 6\n' \
        'started 0 1 1 1\nrefused 0 2 {Full}\nexpired 1 0 1 4\nstarted 0 3 2 3\nend 1 1\n'
    row other_client '' 'start 0 1 3 7\nstop 1 1 1\ntick 3\n' \
        'started 0 1 1 3\nrefused 1 1 {NoSuch}\nexpired 3 0 1 7\nend 3 0\n'
    row no_client '' 'start {MAX_CLIENTS} 1 5 0\n' 'refused {MAX_CLIENTS} 1 {NoClient}\nend 0 0\n'
    row restart '' 'start 0 1 5 1\ntick 3\nrestart 0 2 1 5 2\ntick 5\n' \
        'started 0 1 1 5\nrestarted 0 2 1 2 8\nexpired 8 0 2 2\nend 8 0\n'
    row restart_order '' 'start 0 1 5 1\nstart 1 1 5 2\nrestart 0 2 1 5 3\ntick 5\n' \
        'started 0 1 1 5\nstarted 1 1 2 5\nrestarted 0 2 1 3 5\nexpired 5 1 2 2\nexpired 5 0 3 3\nend 5 0\n'
    row restart_full '--capacity 1' \
        'start 0 1 5 1\nrestart 0 2 1 2 9\nrestart 0 3 1 2 9\nrestart 0 4 2 0 9\nrestart 1 1 2 2 9\ntick 2\n' \
        'started 0 1 1 5\nrestarted 0 2 1 2 2\nrefused 0 3 {NoSuch}\nrefused 0 4 {ZeroInterval}\n' \
        'refused 1 1 {NoSuch}\nexpired 2 0 2 9\nend 2 0\n'
}

# NAME.args has the arguments of a script, one a line. No file: it has none.
@test "each script of examples/ gives its output, and no error" {
    local wanted name arguments
    for wanted in "$EXAMPLES"/*.stdout; do
        name=${wanted%.stdout} arguments=()
        echo "$name"
        [ ! -e "$name.args" ] || mapfile -t arguments < "$name.args"
        "$TIMERS" "${arguments[@]}" < "$name" > output 2> errors
        cmp output "$wanted"
        [ ! -s errors ]
    done
}
@test "an event loop with a tick of a millisecond gets what it should from serve" {
    command -v python3 || skip "no python3"
    "$EXAMPLES/serve.py" "$TIMERS" 0.001 > output 2> errors
    cmp output "$EXAMPLES/serve.output"
    [ ! -s errors ]
}

@test "worked examples of the clock of days" {
    clock_row clock_too_late '--first-tick 8639990' 'start 0 1 10 1\nstart 0 2 9 2\ntick 20\n' \
        'refused 0 1 {TooLate}\nstarted 0 2 1 {LAST_OF_CLOCK}\nexpired {LAST_OF_CLOCK} 0 1 2\ntick refused {ClockEnd}\n' \
        'end {LAST_OF_CLOCK} 0\n'
    clock_row clock_day '--first-tick 86399' 'start 0 1 1 1\ntick 1\n' \
        'started 0 1 1 86400\nexpired 86400 0 1 1\nend 86400 0\n'
}

@test "bad_lines: a bad line is named and nothing is written, with each scheme" {
    local scheme
    bad() {
        for scheme in $schemes; do gives "{FAILED}" "play --scheme $scheme" "$2" "" "bad line $1\n"; done
    }
    bad 2 'start 0 1 5 0\nstart 0 01 5 0\n'
    bad 2 'start 0 1 5 0\nstart 0 2 5 0'
    bad 1 'tick 0\n'
    bad 1 'tick {MAX_TICKS+1}\n'
    bad 1 '\n'
    bad 1 'start 0 1 5 {LAST+1}\n'
    bad 1 'start 0 1 5 99999999999999999999\n'
    bad 1 'start  0 1 5 0\n'
    bad 1 'start 0 1 5 0 \n'
    bad 1 'start 0 1 +5 0\n'
    bad 1 'start 0\t1 5 0\n'
    bad 1 'Start 0 1 5 0\n'
    bad 1 'stop 1 2 3 4\n'
    bad 2 'close\n\r\n'
    bad 1 'restart 0 2 1 5\n'
    bad 1 'start 0 1 5 0\r\n'
    bad 1 ' close\n'
    bad 2 'close\n# comment\n'
    bad 2 'close\nclose'
}

@test "cut_scripts: the front of a script ends at a line, or its last line is bad, with each scheme" {
    local one='started 0 1 1 130\n' two='started 1 1 2 130\n' scheme length
    local -A ends=([0]='end 0 0\n' [16]="${one}end 0 1\n" [25]="${one}end 128 1\n" [39]="$one${two}end 128 2\n"
        [46]="$one${two}expired 130 0 1 1\nexpired 130 1 2 2\nend 130 0\n")
    printf 'start 0 1 130 1\ntick 128\nstart 1 1 2 2\ntick 2\n' > whole
    for scheme in $schemes; do
        for length in {0..46}; do
            head -c "$length" whole > input
            if [ -n "${ends[$length]:-}" ]; then
                leaves 0 "play --scheme $scheme" "${ends[$length]}" ""
            else
                leaves "{FAILED}" "play --scheme $scheme" "" "bad line $(($(wc -l < input) + 1))\n"
            fi
        done
    done
}

@test "io_faults: a script of one byte too many is too long whatever stands in it, with each scheme" {
    local scheme line most
    most=$("$BATS_TEST_DIRNAME/../tools/facts" MAX_SCRIPT)
    for line in 'close' 'x' '' $'\001\377' 'tick 0'; do
        { yes "$line" || true; } | head -c $((most + 1)) > input
        for scheme in $schemes; do leaves "{FAILED}" "play --scheme $scheme" "" "{TooLong}\n"; done
    done
}

@test "threads: 4 clients of 1000 timers if nothing else is asked for" {
    local text
    # shellcheck disable=SC2046  # words
    text="$(printf 'client %s sent 1000 started 1000 expired 1000\\n' 0 1 2 3)end\n"
    gives 0 "threads" "" "$text"
    gives 0 "threads --clients 4 --timers 1000" "" "$text"
    gives 0 "threads --clients {MAX_CLIENTS} --timers 1" "" \
        "$(printf 'client %s sent 1 started 1 expired 1\\n' $(seq 0 $((clients - 1))))end\n"
    gives 0 "threads --clients 1" "" 'client 0 sent 1000 started 1000 expired 1000\nend\n'
    echo "not read" > input
    [ "$("$TIMERS" threads < input > output; cat < input)" = "not read" ]
}

@test "refused arguments read nothing and write nothing" {
    refused() {
        local status=0 left
        printf 'close\n' > input
        left=$({ "$TIMERS" "$@" > output 2> errors; echo "$?"; cat; } < input)
        [ "$left" = "$(put_names <<< '{REFUSED}')"$'\nclose' ] && [ ! -s output ] && grep -qE '^(error|timers): ' errors && return
        echo "timers $*: $left"
        return 1
    }
    refused play --slots 0
    refused play --clients 0
    refused play --capacity 0
    refused play --first-tick -1
    refused play --scheme smooth --first-tick $((2 ** 60))
    refused play --scheme wheel
    refused play --scheme
    refused play x
    refused serve --slots 0
    refused serve --timers 1
    refused serve --keep-going --slots 0
    refused serve --keep-going=1
    refused serve --state
    refused serve --state saved --first-tick 0
    refused play --state saved
    refused show --state saved
    refused serve x
    refused play --keep-going
    refused show --keep-going
    refused show --wakeups
    refused show --counts=1
    refused show --moves=1
    refused show --new=1
    refused show --client
    refused show --client -1
    refused show --timer x
    refused show --from $((2 ** 60))
    refused show --to $((2 ** 60))
    refused serve --new
    refused serve --client 0
    refused play --timer 1
    refused serve --counts
    refused serve --moves
    refused serve --wakeups=1
    refused play --wakeups
    refused show --slots 0
    refused show script
    refused threads --clients 0
    refused threads --timers 0
    refused threads --slots 8
    refused check --slots=8
    refused check --first-tick 0
    refused check --why
    refused check x
    refused pause
    refused --scheme plain
    refused ''
}

@test "each option that is read is used" {
    gives 0 "play" 'start 1 1 11 7\n' 'started 1 1 1 11\nend 0 1\n'
    gives 0 "play --clients=1" 'start 1 1 11 7\n' 'refused 1 1 {NoClient}\nend 0 0\n'
    gives 0 "play --clients=2" 'start 1 1 11 7\n' 'started 1 1 1 11\nend 0 1\n'
    gives 0 "play --capacity=1" 'start 0 1 5 0\nstart 0 2 5 0\n' 'started 0 1 1 5\nrefused 0 2 {Full}\nend 0 1\n'
    gives 0 "play --capacity=2" 'start 0 1 5 0\nstart 0 2 5 0\n' 'started 0 1 1 5\nstarted 0 2 2 5\nend 0 2\n'
    gives 0 "play --first-tick=9" 'tick 1\n' 'end 10 0\n'
    gives 0 "play --first-tick=4 --capacity=1 --clients=2 --slots=8 --scheme=hashed" \
        'start 1 1 5 0\nstart 2 1 5 0\nstart 1 2 5 0\n' \
        'started 1 1 1 9\nrefused 2 1 {NoClient}\nrefused 1 2 {Full}\nend 4 1\n'
    gives 0 "play --slots={MAX_SLOTS} --clients={MAX_CLIENTS} --capacity={MAX_PENDING} --first-tick={LAST}" \
        'start {MAX_CLIENTS-1} 1 1 0\n' 'refused {MAX_CLIENTS-1} 1 {TooLate}\nend {LAST} 0\n'
    gives 0 "serve --wakeups" 'start 0 1 11 7\ntick 11\n' \
        'started 0 1 1 11\nexpired 11 0 1 7\nwakeup never\nend 11 0\n'
    gives 0 "show --moves" 'start 0 1 65 7\ntick 65\n' "$(printf %s 'started 0 1 1 65\n  now 0\n  wheel 1 slot 1: 1\n' \
        '  moved at 64 from wheel 1 slot 1 to wheel 0 slot 1: 1\nexpired 65 0 1 7\n  now 65\nend 65 0\n')"
}

@test "each option is used beside all others of its subcommand" {
    local script='start 2 1 9 4\nbad\nstart 3 1 9 4\nstart 0 1 2 5\nstart 1 1 3 6\ntick 9\n'
    gives "{SKIPPED}" "serve --keep-going --wakeups --scheme hashed --slots 8 --clients 3 --capacity 2 --first-tick 7" "$script" \
        "$(printf %s 'started 2 1 1 16\nrefused 3 1 {NoClient}\nstarted 0 1 2 9\n' \
        'refused 1 1 {Full}\nexpired 9 0 2 5\nexpired 16 2 1 4\nwakeup never\nend 16 0\n')" \
        "bad line 2, column 1: {UnknownWord}\n"
    # Bucket 1 of 8 comes round at tick 1, and bucket 9 of 16 only at the deadline.
    for slots in 8 16; do
        gives 0 "serve --wakeups --slots $slots --scheme hashed" 'start 0 1 9 7\n' \
            "started 0 1 1 9\nwakeup $((slots == 8 ? 1 : 9))\nend 0 1\n"
    done
    gives 0 "show --new --client 0 --timer 1 --from 64 --to 65 --counts --moves --scheme hier --slots 8 --clients 1 --capacity 1 --first-tick 63" \
        'start 0 1 2 7\nstart 1 1 2 7\nstart 0 2 2 7\ntick 2\nstart 0 3 1 7\ntick 1\n' "$(printf %s 'started 0 1 1 65\n' \
        'refused 1 1 {NoClient}\nrefused 0 2 {Full}\n  moved at 64 from wheel 1 slot 1 to wheel 0 slot 1: 1\nexpired 65 0 1 7\n' \
        '  now 65\n  starts 1 moves 1 visits 2\nstarted 0 3 2 66\n  now 65\n  starts 2 moves 1 visits 2\nexpired 66 0 2 7\nend 66 0\n')"
    gives 0 "show --counts --moves --scheme hier --slots 8 --clients 1 --capacity 1 --first-tick 63" \
        'start 0 1 2 7\nstart 1 1 2 7\nstart 0 2 2 7\ntick 2\n' "$(printf %s 'started 0 1 1 65\n  now 63\n' \
        '  starts 1 moves 0 visits 0\n  wheel 1 slot 1: 1\nrefused 1 1 {NoClient}\n  now 63\n  starts 1 moves 0 visits 0\n' \
        '  wheel 1 slot 1: 1\nrefused 0 2 {Full}\n  now 63\n  starts 1 moves 0 visits 0\n  wheel 1 slot 1: 1\n' \
        '  moved at 64 from wheel 1 slot 1 to wheel 0 slot 1: 1\nexpired 65 0 1 7\n  now 65\n' \
        '  starts 1 moves 1 visits 2\nend 65 0\n')"
}

@test "a capacity above the usual one is used by each subcommand" {
    local verb
    awk 'BEGIN { for (i = 1; i <= 1030; i++) print "start 0 " i " 5 7" }' > input
    for verb in play serve show; do
        "$TIMERS" $verb --capacity 1029 < input > output
        [ "$(grep -c '^started ' output)" -eq 1029 ]
        [ "$(grep '^refused ' output)" = "refused 0 1030 full" ]
        "$TIMERS" $verb < input > output
        [ "$(grep -c '^started ' output)" -eq 1024 ]
    done
}

# Of addresses: some 12 MB are the script, its answer and the timers. The pictures have 24 MB.
@test "a script of 900,000 bytes is played in 64 MB, and show holds no more than a line's picture" {
    awk 'BEGIN { for (i = 1; i <= 50000; i++) print "start 0 " i " 1 1" }' > input
    (ulimit -v 65536 && "$TIMERS" play --capacity 50000) < input > output
    [ "$(tail -n 1 output)" = "end 0 50000" ]
    head -n 3000 input > lines   # which are read some 700 at a time
    (ulimit -v 12288 && "$TIMERS" show --capacity 3000) < lines > output
    [ "$(tail -n 1 output)" = "end 0 3000" ]
}

# shown OPTIONS SCRIPT LINE..: show writes these lines
shown() { gives 0 "show $1" "$2" "$(printf '%s\\n' "${@:3}")"; }

@test "rounds: each bucket of 8 slots holds its timers with the rounds that are left" {
    local first='  slot 0: 2:0 4:1'
    local starts='start 0 1 1 11\nstart 0 2 8 12\nstart 0 3 9 13\nstart 0 4 16 14\nstart 0 5 8 15\n'
    shown "--scheme hashed --slots 8" "${starts}tick 1\ntick 7\ntick 1\ntick 7\n" \
        'started 0 1 1 1' '  now 0' '  slot 1: 1:0' 'started 0 2 2 8' '  now 0' '  slot 0: 2:0' '  slot 1: 1:0' \
        'started 0 3 3 9' '  now 0' '  slot 0: 2:0' '  slot 1: 1:0 3:1' \
        'started 0 4 4 16' '  now 0' "$first" '  slot 1: 1:0 3:1' \
        'started 0 5 5 8' '  now 0' "$first 5:0" '  slot 1: 1:0 3:1' \
        'expired 1 0 1 11' '  now 1' "$first 5:0" '  slot 1: 3:0' \
        'expired 8 0 2 12' 'expired 8 0 5 15' '  now 8' '  slot 0: 4:0' '  slot 1: 3:0' \
        'expired 9 0 3 13' '  now 9' '  slot 0: 4:0' 'expired 16 0 4 14' '  now 16' 'end 16 0'
}

@test "rollover, migration, clock_face, clock_end, two_moves: each timer stands in its bucket" {
    shown "" 'start 0 1 4096 1\ntick 4090\nstart 1 1 6 2\ntick 5\nstart 0 2 1 3\ntick 1\n' \
        'started 0 1 1 4096' '  now 0' '  wheel 2 slot 1: 1' '  now 4090' '  wheel 2 slot 1: 1' \
        'started 1 1 2 4096' '  now 4090' '  wheel 2 slot 1: 1 2' '  now 4095' '  wheel 2 slot 1: 1 2' \
        'started 0 2 3 4096' '  now 4095' '  wheel 2 slot 1: 1 2 3' \
        'expired 4096 0 1 1' 'expired 4096 1 2 2' 'expired 4096 0 3 3' '  now 4096' 'end 4096 0'
    shown "" 'start 0 1 130 1\ntick 64\ntick 64\nstart 1 1 2 2\ntick 2\n' \
        'started 0 1 1 130' '  now 0' '  wheel 1 slot 2: 1' '  now 64' '  wheel 1 slot 2: 1' \
        '  now 128' '  wheel 0 slot 2: 1' 'started 1 1 2 130' '  now 128' '  wheel 0 slot 2: 1 2' \
        'expired 130 0 1 1' 'expired 130 1 2 2' '  now 130' 'end 130 0'
    shown "--first-tick 987870" 'start 0 1 3045 5\ntick 3041\ntick 1\ntick 3\n' \
        'started 0 1 1 990915' '  now 987870' '  wheel 1 slot 59: 1' '  now 990911' '  wheel 1 slot 59: 1' \
        '  now 990912' '  wheel 0 slot 3: 1' 'expired 990915 0 1 5' '  now 990915' 'end 990915 0'
    shown "--first-tick {LAST-1}" 'start 0 1 1 5\ntick 1\n' \
        'started 0 1 1 {LAST}' '  now {LAST-1}' '  wheel 0 slot 63: 1' \
        'expired {LAST} 0 1 5' '  now {LAST}' 'end {LAST} 0'
    shown "" 'start 0 1 4161 1\ntick 4096\ntick 64\ntick 1\n' \
        'started 0 1 1 4161' '  now 0' '  wheel 2 slot 1: 1' '  now 4096' '  wheel 1 slot 1: 1' \
        '  now 4160' '  wheel 0 slot 1: 1' 'expired 4161 0 1 1' '  now 4161' 'end 4161 0'
}

@test "spread: a timer moves once for each wheel that it leaves, with both tables" {
    shown "--counts --scheme clock" 'start 0 1 3661 1\ntick 3600\nstart 1 1 61 2\ntick 61\n' \
        'started 0 1 1 3661' '  now 0' '  starts 1 moves 0 visits 0' '  hour 1: 1' \
        '  now 3600' '  starts 1 moves 1 visits 60' '  minute 1: 1' \
        'started 1 1 2 3661' '  now 3600' '  starts 2 moves 1 visits 60' '  minute 1: 1 2' \
        'expired 3661 0 1 1' 'expired 3661 1 2 2' '  now 3661' '  starts 2 moves 3 visits 62' 'end 3661 0'
    shown "--counts" 'start 0 1 3661 1\ntick 3600\nstart 1 1 61 2\ntick 61\n' \
        'started 0 1 1 3661' '  now 0' '  starts 1 moves 0 visits 0' '  wheel 1 slot 57: 1' \
        '  now 3600' '  starts 1 moves 0 visits 56' '  wheel 1 slot 57: 1' \
        'started 1 1 2 3661' '  now 3600' '  starts 2 moves 0 visits 56' '  wheel 1 slot 57: 1 2' \
        'expired 3661 0 1 1' 'expired 3661 1 2 2' '  now 3661' '  starts 2 moves 2 visits 58' 'end 3661 0'
}

@test "clock_face: show --counts counts the visits of a clock: 36 minutes up to 11 o'clock, and 15 more up to 11:15" {
    shown "--counts --scheme clock --first-tick 987870" 'start 0 1 3045 5\ntick 2130\ntick 900\ntick 15\n' \
        'started 0 1 1 990915' '  now 987870' '  starts 1 moves 0 visits 0' '  hour 11: 1' \
        '  now 990000' '  starts 1 moves 1 visits 36' '  minute 15: 1' \
        '  now 990900' '  starts 1 moves 2 visits 51' '  second 15: 1' \
        'expired 990915 0 1 5' '  now 990915' '  starts 1 moves 2 visits 52' 'end 990915 0'
    shown "--counts" 'start 0 1 130 1\nstart 0 2 130 2\nrestart 0 3 2 130 3\n' \
        'started 0 1 1 130' '  now 0' '  starts 1 moves 0 visits 0' '  wheel 1 slot 2: 1' \
        'started 0 2 2 130' '  now 0' '  starts 2 moves 0 visits 0' '  wheel 1 slot 2: 1 2' \
        'restarted 0 3 2 3 130' '  now 0' '  starts 3 moves 0 visits 0' '  wheel 1 slot 2: 1 3' 'end 0 2'
    shown "--counts --scheme plain" 'start 0 1 1 0\n' 'started 0 1 1 1' '  now 0' '  pending: 1:1' 'end 0 1'
}

# over STATUS ARGUMENTS OUTPUT [ERRORS]: a call that reads nothing of standard input has this status and writes these texts
over() {
    local left
    printf 'close\n' > input
    # shellcheck disable=SC2086  # words
    left=$({ "$TIMERS" $2 > output 2> errors; echo "$?"; cat; } < input)
    [ "$left" = "$(put_names <<< "$1")"$'\nclose' ] && named output "$3" && named errors "${4:-}" && return
    echo "timers $2: $left"
    return 1
}

@test "a FILE is read in place of standard input" {
    local text='started 0 1 1 3\nexpired 3 0 1 7\nend 3 0\n' call
    printf 'start 0 1 3 7\ntick 3\n' > trace
    cp trace play
    for call in trace "play trace" "play --scheme hashed trace" "play trace --scheme plain" "--scheme plain trace" \
        "trace --slots=8" "-- trace" ./play "play play" "serve trace" "serve --keep-going trace" "show --from 4 trace"; do
        over 0 "$call" "$text"
    done
    over 0 "serve --wakeups trace" 'started 0 1 1 3\nexpired 3 0 1 7\nwakeup never\nend 3 0\n'
    over 0 "check trace" ''
    over 0 "--first-tick 2 trace" 'started 0 1 1 5\nexpired 5 0 1 7\nend 5 0\n'
    : > empty
    for call in empty "play empty" "serve empty" "show empty"; do over 0 "$call" 'end 0 0\n'; done
    over 0 "check empty" ''
}

@test "a FILE is played as its text on standard input is, and - is standard input" {
    local script call
    for script in "$EXAMPLES"/*.stdout; do
        cp "${script%.stdout}" trace
        for call in play serve show check "play --scheme clock"; do
            "$TIMERS" $call < trace > wanted
            "$TIMERS" $call trace < /dev/null > output && cmp output wanted
            "$TIMERS" $call - < trace > output && cmp output wanted
        done
        "$TIMERS" play < trace > wanted
        "$TIMERS" trace < /dev/null > output && cmp output wanted
        "$TIMERS" - < trace > output && cmp output wanted
    done
    gives 0 "--slots 8 -" 'close\n' 'closed 0\nend 0 0\n'
    gives "{FAILED}" "-" 'close\nx\n' '' 'bad line 2\n'
}

@test "a FILE that can't be opened is refused, with its name and the reason" {
    local call
    mkdir folder
    echo x > trace
    for call in "" "play " "serve " "serve --keep-going " "show " "check " "--slots 8 "; do
        over "{REFUSED}" "${call}trac" '' 'timers: trac: No such file or directory\n'
        over "{REFUSED}" "${call}folder" '' 'timers: folder: Is a directory\n'
        over "{REFUSED}" "${call}trace/x" '' 'timers: trace/x: Not a directory\n'
    done
    over "{REFUSED}" "$(printf 'x%.0s' {1..300})" '' "timers: $(printf 'x%.0s' {1..300}): File name too long\n"
    over "{REFUSED}" "$(printf 'x%.0s' {1..5000})" '' "timers: $(printf 'x%.0s' {1..5000}): File name too long\n"
    chmod a-r trace
    if [ ! -r trace ]; then over "{REFUSED}" trace '' 'timers: trace: Permission denied\n'; fi
}

@test "the error of a FILE names it, the line and what is wrong there" {
    local call
    printf 'close\nstrat 0 1 3 7\nclose\n' > trace
    for call in "" "play "; do over "{FAILED}" "${call}trace" '' "timers: trace:2: {UnknownWord} 'strat'\n"; done
    over "{FAILED}" "serve trace" 'closed 0\n' "timers: trace:2: {UnknownWord} 'strat'\n"
    over "{FAILED}" "show --from 1 trace" 'closed 0\n' "timers: trace:2: {UnknownWord} 'strat'\n"
    over "{BAD}" "check trace" 'line 2, column 3: {UnknownWord}\n'
    printf 'close\nat x\n' > trace
    over "{FAILED}" trace '' "timers: trace:2: {UnknownWord} 'at'\n"
    for call in serve show\ --from\ 1; do over "{FAILED}" "$call trace" 'closed 0\n' "timers: trace:2: tick: {NotANumber} 'x'\n"; done
    printf 'close\nstrat 0 1 3 7\nclose\n' > trace
    over "{SKIPPED}" "serve --keep-going trace" 'closed 0\nclose refused {Closed}\nend 0 0\n' 'bad line 2, column 3: {UnknownWord}\n'
    wrong() {
        printf '%b' "$1" > trace
        over "{FAILED}" trace '' "timers: trace:$2\n"
    }
    wrong 'start 0 1 05 7\n' "1: interval: {LeadingZero} '05'"
    wrong 'start 0 1 5\n' '1: action: {MissingField}'
    wrong 'start 0 1 5 7 9\n' '1: {TooManyFields}'
    wrong 'start 0 1 x7 7\n' "1: interval: {NotANumber} 'x7'"
    wrong 'clos\n' "1: {UnknownWord} 'clos'"
    wrong 'close' '1: {NoLineEnd}'
    wrong 'close\n\n' '2: {EmptyLine}'
    wrong 'close\r\n' '1: {CarriageReturn}'
    wrong 'x\033[2J\n' "1: {UnknownWord} 'x'"
    wrong 'x\377y\n' '1: {UnknownWord}'
    wrong "$(printf 'x%.0s' {1..3000})\n" '1: {UnknownWord}'
    wrong "$(printf 'tick 1\\n%.0s' {1..2000})tick 0\ntick 1\n" "2001: count: {OutOfTicks} '0'"
}

@test "an error of a FILE that is in no line names the file, or else the program alone" {
    { yes close || true; } | head -c $(($("$BATS_TEST_DIRNAME/../tools/facts" MAX_SCRIPT) + 1)) > long
    over "{FAILED}" long '' 'timers: long: {TooLong}\n'
    over "{CHECK_FAILED}" "check long" '' 'timers: long: {TooLong}\n'
    gives "{CHECK_FAILED}" "check" "$(cat long)\n" '' 'timers: standard input: {TooLong}\n'
    [ -w /dev/full ] || skip "no /dev/full"
    : > empty
    for call in empty "serve empty" "show empty"; do
        run -1 bash -c "'$TIMERS' $call 2>&1 > /dev/full"
        [ "$output" = "timers: write failed" ]
    done
}

@test "a stream goes on from the state of another as one stream would, with each scheme" {
    local script scheme lines
    for script in "$EXAMPLES"/*.stdout; do
        script=${script%.stdout}
        lines=$(($(wc -l < "$script") / 2))
        for scheme in $schemes "hashed --slots 1"; do
            "$TIMERS" serve --scheme $scheme "$script" > wanted
            { head -n "$lines" "$script" && echo state; } | "$TIMERS" serve --scheme $scheme > front
            grep -E '^(state|number|timer) ' front > saved
            tail -n +$((lines + 1)) "$script" | "$TIMERS" serve --scheme $scheme --state saved > back
            grep -vE '^(state|number|timer|end) ' front | cat - back | cmp - wanted || { echo "$script $scheme" && return 1; }
        done
    done
}

@test "a state that is wrong or does not fit is refused by its line, before the input is read" {
    local call
    wrong() {
        printf '%b' "$1" > saved
        for call in "" "--keep-going " "--wakeups --scheme plain "; do
            over "{REFUSED}" "serve $call--clients 2 --capacity 1 --state saved" '' "timers: saved$2\n"
        done
    }
    wrong '' ': the last line is missing'
    wrong 'state open 0 0\n' ': the last line is missing'
    wrong 'state open 0 0\nstate end 0' ':2: no line of a state'
    wrong 'state open 0 00\nstate end 0\n' ':1: no line of a state'
    wrong 'close\n' ':1: no line of a state'
    wrong 'state end 0\n' ':1: the line is out of place'
    wrong 'state open 0 0\nstate end 0\nstate end 0\n' ':3: the line is out of place'
    wrong 'state open 0 0\nnumber 0 0\nnumber 1 0\nnumber 2 0\nstate end 0\n' ':4: there are more clients than the facility has'
    wrong 'state open 0 2\nnumber 0 2\ntimer 1 0 1 5 7\ntimer 2 0 2 5 7\nstate end 2\n' ':4: there are more timers than the facility may hold'
    wrong 'state open 5 1\nnumber 0 1\ntimer 1 0 1 5 7\nstate end 1\n' ':3: the deadline is not after the present tick'
    printf 'state open 8640000 0\nstate end 0\n' > saved
    over "{REFUSED}" "serve --scheme clock --state saved" '' 'timers: saved:1: the tick is after the last one of the clock\n'
    over "{REFUSED}" "serve --state nowhere" '' 'timers: nowhere: No such file or directory\n'
    over "{REFUSED}" "serve --state ." '' 'timers: .: Is a directory\n'
    printf 'state open 3 0\nstate end 0\n' > saved
    over "{REFUSED}" "serve --state saved nowhere" '' 'timers: nowhere: No such file or directory\n'
    gives 0 "serve --state=saved --clients 1" '' 'end 3 0\n'
}

@test "at a terminal the program says what it waits for, before it reads" {
    command -v python3 > /dev/null || skip "no python3"
    for call in "" play serve check; do
        run -0 python3 -B - "$TIMERS" $call << 'EOT'
import os, pty, subprocess, sys
ours, theirs = pty.openpty()
ran = subprocess.Popen(sys.argv[1:], stdin=theirs, stdout=subprocess.PIPE, stderr=subprocess.PIPE)
note = ran.stderr.readline()
os.write(ours, b"\4")
out, more = ran.communicate()
print((note + more).decode(), end="")
EOT
        [ "$output" = "timers: lines are read from the terminal; Ctrl-D ends them" ]
    done
}

@test "a pipe can be a FILE, and is read once" {
    run -0 bash -c "'$TIMERS' <(printf 'close\n')"
    [ "$output" = $'closed 0\nend 0 0' ]
    run -1 bash -c "'$TIMERS' <(printf 'close\nx\n')"
    [[ $output =~ ^"timers: "[^:]*":2: bad line"$ ]]
}

@test "check names the first byte with which no line begins" {
    command -v python3 > /dev/null || skip "no python3"
    python3 -B "$BATS_TEST_DIRNAME/columns.py" "$TIMERS"
}

# A help is written to standard output, and nothing is read.
help_of() {
    echo x > input
    [ "$({ "$TIMERS" "$@" > output 2> errors; echo "$?"; cat; } < input)" = $'0\nx' ] && [ ! -s errors ]
}

@test "letters after -h change nothing" {
    local verb
    for verb in "" play serve show threads check; do
        # shellcheck disable=SC2086  # words
        "$TIMERS" $verb -h > wanted
        # shellcheck disable=SC2086
        help_of $verb -hx && cmp output wanted
    done
}
@test "a help that is asked for first is written, whatever words come after it" {
    local verb words
    for verb in play serve show threads check; do
        "$TIMERS" $verb --help > wanted
        for words in x "--slots 3 x" "--scheme sieve --slots 3 x y" "--clients 0 x" "--counts --capacity 0 --what"; do
            # shellcheck disable=SC2086  # words
            help_of $verb --help $words && cmp output wanted
        done
    done
}

@test "each help of a subcommand says how it is called" {
    called() {
        for option in -h --help; do
            help_of "$1" "$option"
            grep -qxF "Usage: timers $1$2" output
        done
    }
    called play " [OPTIONS] [FILE]"
    called serve " [OPTIONS] [FILE]"
    called show " [OPTIONS] [FILE]"
    called threads " [OPTIONS]"
    called check " [FILE]"
}

@test "help and version are whole where they are asked for, and a full output is told" {
    # last_of NAME: the last two lines of this text of help.rt
    last_of() {
        sed "/^pub static $1: /,/\";\$/!d; s/\";\$//" "$BATS_TEST_DIRNAME/../crates/timer_program/src/help.rt" |
            tail -n 2 | paste -sd ' '
    }
    whole() {
        [ -n "$3" ]
        # shellcheck disable=SC2086  # words
        help_of $1
        case $(tr '\n' ' ' < output) in
        "$2"*"$3 ") ;;
        *)
            echo "timers $1"
            return 1
            ;;
        esac
        local status=0
        # shellcheck disable=SC2086  # words
        "$TIMERS" $1 > /dev/full 2> errors || status=$?
        [ "$status" -eq "$(put_names <<< "{FAILED}")" ] && named errors "{Write}\n"
    }
    for words in --help help; do whole "$words" "Plays a script" "$(last_of SCRIPTS)"; done
    for words in "play --help" "help play"; do whole "$words" "Plays a script" "$(last_of SCHEMES)"; done
    for words in "serve --help" "help serve"; do whole "$words" "Answers each line" "$(last_of STREAMS)"; done
    whole "show --help" "Answers lines" "$(last_of PLACEMENTS)"
    whole "threads --help" "Runs clients" "$(last_of THREADS)"
    whole "check --help" "Reports every" "$(last_of CHECKS)"
    for words in --version -V; do whole "$words" "timers " "$(cat "$BATS_TEST_DIRNAME/../tools/install/version")"; done
}

@test "a script that a program wrote of its calls expires the timers that the program saw" {
    printf 'started 0 1 1 130\nstarted 0 2 2 50\nexpired 50 0 2 97\nstopped 0 3 1\nstarted 0 4 3 120\nexpired 120 0 3 98\nend 200 0\n' |
        diff - <("$TIMERS" < "$EXAMPLES/c/record.stdout")
}
