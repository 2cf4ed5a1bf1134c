#!/bin/sh
# Prints what the header of a LAS file says, and the bounds of the points that lasline reads of it, in three places. The exit code is
# that of the run. Where it isn't 0, lasline says on standard error why the file isn't read, the file is named there, and nothing is
# printed.
#
#     examples/header.sh FILE
if [ $# -ne 1 ]; then
    echo "usage: examples/header.sh FILE" >&2
    exit 2
fi
file=$1
room=$(mktemp -d) || exit 4
trap 'rm -rf "$room"' EXIT
trap 'exit 130' INT TERM

# The report of a run that reads all points, with their bounds.
jq -n --arg in "$file" '
  [{"type":"readers.las","filename":$in},{"type":"writers.tally","tally":"bounds"}]' > "$room/pipeline.json" || exit 1
lasline run "$room/pipeline.json" > "$room/report"
code=$?
if [ "$code" -ne 0 ]; then
    echo "$file: exit code $code" >&2
    exit "$code"
fi

# at TYPE PLACE SIZE: numbers of the file, by od; text PLACE SIZE: a text that is filled up with zero bytes.
at() { od -A n -v -t "$1" -j "$2" -N "$3" < "$file" | xargs; }
text() { tail -c "+$(($1 + 1))" < "$file" | head -c "$2" | tr -d '\0'; }

# records KIND FIRST COUNT TYPE SIZE HEAD: user ID, record ID and size of variable length records.
records() {
    place=$2
    number=0
    while [ "$number" -lt "$3" ]; do
        size=$(at "$4" $((place + 20)) "$5")
        echo "$1 $number: $(text $((place + 2)) 16) $(at u2 $((place + 18)) 2), $size bytes"
        place=$((place + $6 + size))
        number=$((number + 1))
    done
}

minor=$(at u1 25 1)
echo "version: 1.$minor"
echo "format: $(at u1 104 1), records of $(at u2 105 2) bytes"
echo "points: $(sed -n '1s/.* points //p' "$room/report")"
echo "scales: $(at f8 131 24)"
echo "offsets: $(at f8 155 24)"
echo "bounds in the header: $(at f8 179 48 | awk '{ print $2, $1, $4, $3, $6, $5 }')"
echo "bounds of the points: $(awk '/^tally bounds/ { if (NF > 3) print $3, $6, $4, $7, $5, $8; else print $3 }' "$room/report")"
records VLR "$(at u2 94 2)" "$(at u4 100 4)" u2 2 54
[ "$minor" -lt 4 ] || records EVLR "$(at u8 235 8)" "$(at u4 243 4)" u8 8 60
