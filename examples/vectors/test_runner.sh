#!/bin/sh
# Tests of the runner of vectors: planted wrong answers are reported at their lines and nowhere else, lines that cannot
# be read are bad lines, and a file without lines fails.
#     sh examples/vectors/run.sh --test          builds the runner and runs these tests first
#     sh examples/vectors/test_runner.sh RUNNER
set -u
run=$1
here=$(cd "$(dirname "$0")" && pwd)
work=$(mktemp -d)
trap 'rm -rf "$work"' EXIT
trap 'exit 143' HUP INT TERM

# says NAME STATUS: the runner over $work/lines ends with the status and prints $work/expected
says() {
    "$run" "$work/lines" >"$work/said"
    status=$?
    [ "$status" = "$2" ] && diff "$work/expected" "$work/said" && return
    echo "the runner over $1: status $status"
    exit 1
}

cat >"$work/lines" <<'LINES'
# answers that are wrong, and those of lines around them
v = flat i32? 4 4 null 7
v rows => 4 4 null 8
v rows => 4 4 null 7
v at 1 => 5
v at 9 => refused 8 9 5
v sum
w = flat utf8 "a\sb"
w rows => "a b"
refuse v slice 0 2 => ok none
refuse v at 0 => 4 none
LINES
cat >"$work/expected" <<'LINES'
line 3: expected 4 4 null 8
    got 4 4 null 7
line 5: expected 5
    got 4
line 6: expected refused 8 9 5
    got refused 8 9 4
line 7: expected ok
    got 15
line 9: expected "a b"
    got "a\sb"
line 10: expected ok none
    got ok memory
4 agree, 6 differ, 0 not served
LINES
says "wrong answers" 1

cat >"$work/lines" <<'LINES'
v = flat u8 1
nobody rows => bad line
v = flat u8 1 300 => bad line
v = flat u8 "1" => bad line
v = flat utf8 "\q" => bad line
v = sort nobody => bad line
v at => bad line
v at -1 => bad line
v jump 1 => bad line
v run sum ; => bad line
v probe 0 => bad line
refuse v = flat u8 1 => bad line
refuse 1 v sum => bad line
kernels all slice => bad line
thresholds 1 2 => bad line
read => bad line
read 0 => bad line
read = flat u8 1 => bad line
v rows => 1
v rows
LINES
cat >"$work/expected" <<'LINES'
line 20: expected ok
    got 1
19 agree, 1 differ, 0 not served
LINES
says "lines that cannot be read" 1

# a column that a line without a call may have changed is not known from there on; one that is refused is as it was
cat >"$work/lines" <<'LINES'
v = flat u16 1
v compare eq u8 1 => refused 12
v rows => 1
e = flat u8 2
l = flat list(u8) [1]
l cast list(u8) => refused 13
l rows => [1]
l = deserialize list(u8) 2 10 01 / e l
l rows => [1] [1]
l = flat list(u8) [2]
l rows => [2]
LINES
cat >"$work/expected" <<'LINES'
1 line is not served: a cast to lists
1 line is not served: a column that a line without a call may have changed
1 line is not served: a scalar of a type that C does not know from the column's
1 line is not served: deserialize of lists
7 agree, 0 differ, 4 not served
LINES
says "lines that no call serves" 0

echo "0 agree, 0 differ, 0 not served" >"$work/expected"
: >"$work/lines"
says "an empty file" 1
echo "# no line" >"$work/lines"
says "a file of comments" 1

# a digit of a thousand answers is another one: the first of one answer, the last of the next
"$run" --list "$here/lines.txt" | sed -n 's/^line \([0-9]*\) is not served.*/\1/p' >"$work/not_served"
awk -v planted="$work/planted" '
    FNR == NR { is_left_out[$1]; next }
    { at = index($0, " => ") }
    !at || (FNR in is_left_out) || /^#/ || substr($0, at) !~ /[0-9]/ { print; next }
    ++count % 27 || ++plants > 1000 { print; next }
    {
        request = substr($0, 1, at + 3); answer = substr($0, at + 4)
        match(answer, plants % 2 ? /[0-9]/ : /[0-9][^0-9]*$/)
        digit = substr(answer, RSTART, 1)
        print request substr(answer, 1, RSTART - 1) (digit + 1) % 10 substr(answer, RSTART + 1)
        print FNR >planted
    }' "$work/not_served" "$here/lines.txt" >"$work/lines"
"$run" "$work/lines" | sed -n 's/^line \([0-9]*\): expected .*/\1/p' >"$work/reported"
[ "$(wc -l <"$work/planted")" -eq 1000 ] && diff "$work/planted" "$work/reported" ||
    { echo "the runner over a thousand planted digits"; exit 1; }
echo "the runner: a thousand planted digits are reported at their lines"
