#!/bin/sh
# Runs the replay program on the stored cases and compares byte for byte: sh tests/replays.sh [PROGRAM]
# Also: the longest texts, input that comes in pieces, and ./replay as a user calls it, also where its output cannot be written or the program crashes.
# Needs nothing but a POSIX shell and its tools, and mktemp.
root=$(cd "$(dirname "$0")/.." && pwd) || exit 2
program=${1:-$root/target/bin/replay_main}
[ -x "$program" ] || {
    echo "replays: there is no program $program; ./replay builds it, or name another" >&2
    exit 2
}
program=$(cd "$(dirname "$program")" && pwd)/$(basename "$program")
cases=$root/tests/replays
folder=$(mktemp -d) || exit 2
trap 'rm -rf "$folder"' EXIT
trap 'exit 2' HUP INT TERM
same=0
different=0

# Counts a case: NAME and the exit code that is expected; its output is in `got` and `said`, what is expected in `want` and `tell`.
count() {
    if [ "$code" -eq "$2" ] && cmp -s "$folder/want" "$folder/got" && cmp -s "$folder/tell" "$folder/said"; then
        same=$((same + 1))
        return
    fi
    different=$((different + 1))
    echo "replays: $1: exit code $code, expected $2; the first difference (< expected, > found):"
    { diff "$folder/want" "$folder/got"; diff "$folder/tell" "$folder/said"; } | head -n 4
}

# Runs a command whose standard output is to be `want`, with nothing on standard error and exit code 0.
outputs() {
    title=$1
    shift
    : >"$folder/tell"
    "$@" >"$folder/got" 2>"$folder/said"
    code=$?
    count "$title" 0
}

stored() {
    for file in "$cases"/*.replay; do
        [ -f "$file" ] || continue
        cp "${file%.replay}.expected" "$folder/want" || exit 2
        case_name=$(basename "$file" .replay)
        outputs "$case_name" "$program" <"$file"
    done
}

# The examples that a newcomer starts from.
examples() {
    for file in "$root"/examples/*.replay; do
        case_name=$(basename "$file" .replay)
        cp "$root/tests/examples/$case_name.expected" "$folder/want" || exit 2
        outputs "example $case_name" "$program" <"$file"
    done
}

# So many times the same text.
repeated() {
    awk -v n="$1" -v text="$2" 'BEGIN { for (i = 0; i < n; i++) printf "%s", text }'
}

# Compares a made text, in `made`, after a look at its length.
made() {
    [ "$(wc -c <"$folder/made")" -eq "$2" ] || {
        echo "replays: $1: the text made has not $2 bytes" >&2
        exit 2
    }
    outputs "$1" "$program" <"$folder/made"
}

# 26 bytes of header and blocks that print nothing; the last id fills up to the length.
silent() {
    printf 'size=4\nindirect=0\nevent=0\n'
    repeated 1722 'op=used\nid=0\nlen=0\n'
    printf 'op=used\nid=%s\nlen=0\n' "$1"
}

# The longest output: 27 bytes of header, and blocks of 16 bytes, each of which prints 40; the last one fills up.
loud() {
    printf 'size=64\nindirect=0\nevent=0\n'
    repeated 2045 'op=add\nin=\nout=\n'
    printf 'op=add\nin=%s\nout=\n' "$1"
}

loud_answer() {
    printf 'size=64\nindirect=0\nevent=0\n'
    repeated 2045 'op=add\nanswer=1\nvalue=0\nsteps=0\nfree=64\n'
    printf 'op=add\nanswer=0\nvalue=0\nsteps=4\nfree=63\n'
}

# 32,768 bytes are read, and one more is too long, whatever stands in them.
longest() {
    printf 'size=4\nindirect=0\nevent=0\n' >"$folder/want"
    silent 100000 >"$folder/made" && made "32,768 bytes, nothing printed" 32768
    loud_answer >"$folder/want"
    loud 12:34 >"$folder/made" && made "32,768 bytes, most printed" 32768
    echo bad=1 >"$folder/want"
    repeated 32768 '\n' >"$folder/made" && made "32,768 newlines" 32768
    echo bad=0 >"$folder/want"
    silent 1000000 >"$folder/made" && made "32,769 bytes, nothing printed" 32769
    loud 123:45 >"$folder/made" && made "32,769 bytes, most printed" 32769
    for length in 32769 65535 65536 65537 200000; do
        repeated "$length" '\n' >"$folder/made" && made "$length newlines" "$length"
    done
}

# So many bytes at a time, through a pipe.
piped() {
    dd if="$1" bs="$2" 2>"$folder/dd" | "$program"
}

# The first part, then the rest a second later.
paused() {
    { dd if="$1" bs="$2" count=1 2>"$folder/dd"; sleep 1; dd if="$1" bs="$2" skip=1 2>"$folder/dd"; } | "$program"
}

in_pieces() {
    for name in worked any_order entries_both_65 cut_inside_08 input_empty; do
        cp "$cases/$name.expected" "$folder/want"
        for size in 1 7; do
            outputs "$name, $size bytes at a time" piped "$cases/$name.replay" "$size"
        done
    done
    cp "$cases/worked.expected" "$folder/want"
    outputs "worked, with a pause inside a line" paused "$cases/worked.replay" 9
    silent 1000000 >"$folder/made"
    echo bad=0 >"$folder/want"
    outputs "32,769 bytes, one at a time" piped "$folder/made" 1
}

# A command of the user's that fails: exit code 2 and a message on standard error, both in files beforehand.
fails() {
    title=$1
    shift
    "$@" >"$folder/got" 2>"$folder/said"
    code=$?
    count "$title" 2
}

# A command whose output cannot be written: exit code 1, and the message.
full() {
    title=$1
    shift
    : >"$folder/want"
    : >"$folder/got"
    echo "replay: the output could not be written" >"$folder/tell"
    "$@" >/dev/full 2>"$folder/said"
    code=$?
    count "$title" 1
}

elsewhere() {
    (cd / && "$folder/user/replay" "$folder/user/a b.replay")
}

linked() {
    (cd / && "$folder/bin/linked" "$folder/user/a b.replay")
}

# The command beside a program, in a folder of its own, so that any program can be tried.
as_a_user() {
    mkdir -p "$folder/user/target/bin" "$folder/bin" || exit 2
    cp "$root/replay" "$folder/user/replay" && ln -s "$program" "$folder/user/target/bin/replay_main" || exit 2
    cp "$cases/worked.replay" "$folder/user/a b.replay" && cp "$cases/id_letters.replay" "$folder/user/wrong" || exit 2
    cd "$folder/user" || exit 2
    cp "$cases/worked.expected" "$folder/want"
    outputs "./replay FILE" ./replay "a b.replay"
    outputs "./replay < FILE" ./replay <"a b.replay"
    outputs "./replay from elsewhere" elsewhere
    if command -v readlink >/dev/null 2>&1; then
        ln -s ../user/replay "$folder/bin/linked"
        outputs "./replay through a link" linked
    fi
    cat "$cases/worked.expected" "$cases/id_letters.expected" "$cases/worked.expected" >"$folder/want"
    outputs "./replay with several files" ./replay "a b.replay" wrong "$folder/user/a b.replay"
    echo "usage: replay [FILE...] (standard input where no file is named; docs/REPLAYS.md describes the format)" >"$folder/want"
    outputs "./replay --help" ./replay --help
    outputs "./replay -h" ./replay -h
    user_errors
}

# Nobody reads the pipe any more when the program writes, with the signal for that ignored and not.
into_a_closed_pipe() {
    : >"$folder/want"
    : >"$folder/got"
    : >"$folder/tell"
    : >"$folder/said"
    { sleep 1; ./replay "a b.replay" 2>/dev/null; echo $? >"$folder/code"; } | :
    code=$(cat "$folder/code")
    count "./replay FILE into a closed pipe" 1
    echo "replay: the output could not be written" >"$folder/tell"
    { trap '' PIPE; sleep 1; ./replay "a b.replay" 2>"$folder/said"; echo $? >"$folder/code"; } | :
    code=$(cat "$folder/code")
    count "./replay FILE into a closed pipe, the signal ignored" 1
}

# A program that a signal ends after some output.
crashing() {
    printf '#!/bin/sh\necho size=4\nkill -s SEGV $$\n' >target/bin/replay_main
    chmod +x target/bin/replay_main
    echo size=4 >"$folder/want"
    echo "replay: the program ended by signal SEGV" >"$folder/tell"
    ./replay "a b.replay" >"$folder/got" 2>"$folder/said"
    code=$?
    count "./replay with a program that crashes" 1
}

user_errors() {
    : >"$folder/want"
    echo "replay: cannot read the file none.replay" >"$folder/tell"
    fails "./replay with a missing file" ./replay none.replay
    echo "replay: cannot read the file target" >"$folder/tell"
    fails "./replay with a folder" ./replay target
    cp "$cases/worked.expected" "$folder/want"
    echo "replay: cannot read the file none.replay" >"$folder/tell"
    fails "./replay with a missing file between two" ./replay "a b.replay" none.replay "a b.replay"
    if [ -c /dev/full ]; then
        full "./replay FILE to a full disk" ./replay "a b.replay"
        full "./replay < FILE to a full disk" ./replay <"a b.replay"
        full "./replay with two files to a full disk" ./replay "a b.replay" wrong
    fi
    into_a_closed_pipe
    rm target/bin/replay_main
    crashing
    rm target/bin/replay_main
    ln -s "$(command -v dirname)" "$folder/bin/dirname"
    : >"$folder/want"
    echo "replay: the program is not built yet, and the Rattle kit's command rt, which builds it, is not on the PATH" >"$folder/tell"
    fails "./replay with no program and no kit" env PATH="$folder/bin" ./replay "a b.replay"
}

stored
examples
[ $((same + different)) -gt 0 ] || {
    echo "replays: there are no stored cases"
    exit 1
}
longest
in_pieces
as_a_user
[ "$different" -eq 0 ] || {
    echo "replays: $different cases differ, $same are the same"
    exit 1
}
echo "replays: $same cases the same"
