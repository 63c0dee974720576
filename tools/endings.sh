#!/bin/sh
# How replay and trace begin and end, and what they say on standard error: what the system answers stands in no contract, so it is
# run. Each case is told in a line, and the last line says how many went as they should. './tefandukk endings' runs this.
# POSIX sh with mktemp and timeout, and /dev/full.
#
#     tools/endings.sh [PROGRAM..]      both unless told
set -u
here=$(cd "$(dirname "$0")/.." && pwd -P) || exit 2
work=$(mktemp -d) || exit 2
trap 'rm -rf "$work"' EXIT
trap 'exit 2' HUP INT TERM
sample=$here/samples/every-event
tried=0
good=0
exec </dev/null

# Runs a program with this script's standard input, and keeps what it wrote to either output and how it ended.
run() { # NAME [FILE]
    timeout 60 "$here/tefandukk" "$@" >"$work/out" 2>"$work/err"
    ended=$?
}

# What was run last wrote the lines of a file, said the message, and ended by itself.
expect() { # CASE LINES MESSAGE
    tried=$((tried + 1))
    said=$(cat "$work/err")
    if [ $ended -ne 124 ] && cmp -s "$2" "$work/out" && [ "$said" = "$3" ]; then
        good=$((good + 1))
        echo "as it should: $name, $1"
        return
    fi
    cmp -s "$2" "$work/out" && lines=right || lines=wrong
    echo "NOT as it should: $name, $1: lines $lines, ended with $ended, said '$said' and not '$3'"
}

# The sample in three pieces. The last is sent once lines of the first two have been written, or after 20 seconds.
pieces() {
    dd if="$sample.log" bs=1 count=50 2>/dev/null
    sleep 1
    dd if="$sample.log" bs=1 skip=50 count=150 2>/dev/null
    waited=0
    until [ -s "$work/out" ] || [ $waited -ge 20 ]; do
        sleep 1
        waited=$((waited + 1))
    done
    [ $waited -lt 20 ] && : >"$work/early"
    dd if="$sample.log" bs=1 skip=200 2>/dev/null
}

numbered() { # FILE
    grep -c '^[0-9]' "$1"
}

: >"$work/empty"
echo 'bad at 0' >"$work/bad"
mkdir "$work/folder"
mkfifo "$work/pipe"
long=$(printf '%05000d' 0)
# The sample's events 512 times behind one configuration, of 36 bytes: more than the window and the buffer hold.
times=1
tail -c +37 "$sample.log" >"$work/events"
while [ $times -lt 512 ]; do
    cat "$work/events" "$work/events" >"$work/twice"
    mv "$work/twice" "$work/events"
    times=$((times * 2))
done
dd if="$sample.log" bs=36 count=1 2>/dev/null | cat - "$work/events" >"$work/long.log"

for name in ${*:-replay trace}; do
    "$here/tefandukk" $name "$sample.log" >/dev/null || exit 2
    run $name "$work/folder"
    expect 'a folder' "$work/empty" "$work/folder: Is a directory"
    run $name "$work/none"
    expect 'no such file' "$work/empty" "$work/none: No such file or directory"
    run $name "$long"
    expect 'an argument of 5,000 bytes' "$work/empty" 'argument: File name too long'
    run $name "$work/empty"
    expect 'an empty file' "$work/bad" ''
    run $name <"$work/empty"
    expect 'an empty standard input' "$work/bad" ''
    run $name <&-
    expect 'no standard input' "$work/empty" 'standard input: Bad file descriptor'
    run $name "$sample.log"
    expect 'a sample by its name' "$sample.$name" ''
    run $name "$sample.log" <&-
    expect 'a sample by its name, with no standard input' "$sample.$name" ''
    run $name <"$sample.log"
    expect 'a sample on standard input' "$sample.$name" ''

    : >"$work/out"
    rm -f "$work/early"
    pieces >"$work/pipe" &
    run $name <"$work/pipe"
    wait
    [ -e "$work/early" ] || echo 'no line before the last piece' >>"$work/err"
    expect 'a sample in pieces, with lines before the last' "$sample.$name" ''

    run $name "$work/long.log"
    cp "$work/out" "$work/long.$name"
    [ "$(numbered "$work/out")" -eq $((times * $(numbered "$sample.$name"))) ] || echo 'not a line for each event' >>"$work/err"
    expect 'a long log by its name' "$work/long.$name" ''
    dd if="$work/long.log" bs=1000 2>/dev/null >"$work/pipe" &
    run $name <"$work/pipe"
    wait
    expect 'a long log by 1,000 bytes' "$work/long.$name" ''
    timeout 60 "$here/tefandukk" $name "$work/long.log" >/dev/full 2>"$work/err"
    ended=$?
    : >"$work/out"
    expect 'a full device' "$work/empty" 'standard output: No space left on device'
done
echo "$good of $tried"
[ $good -eq $tried ]
