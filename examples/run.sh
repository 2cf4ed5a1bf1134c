#!/bin/sh
# Runs each pipeline and each script of this folder by the program that is named, in a folder of its own below the one that is
# named, and compares the exit code, what was printed and said, and all files that are there then with those of expected/.
#
#     examples/run.sh target/lasline target/examples
#
# The scripts need jq, times.py and the tiles of the survey Python 3, and the survey snakemake: it is left out where that isn't there.
#
# Functions are called by their names, in try.
# shellcheck disable=SC2317
if [ $# -ne 2 ]; then
    echo "usage: examples/run.sh PROGRAM FOLDER" >&2
    exit 2
fi
program=$(cd "$(dirname "$1")" && pwd)/$(basename "$1") || exit 2
here=$(cd "$(dirname "$0")" && pwd) || exit 2
mkdir -p "$2" && room=$(cd "$2" && pwd) || exit 2

# The scripts call the program by its name.
rm -rf "${room:?}/bin"
mkdir "$room/bin" && cp "$program" "$room/bin/lasline" || exit 2
PATH=$room/bin:$PATH
export PATH

status=0

# try NAME COMMAND ..: the command in a folder that has the files of this one.
try() {
    name=$1
    shift
    found=$room/$name.found
    rm -rf "${room:?}/$name" "${found:?}"
    mkdir "$room/$name" "$found" || exit 2
    cp "$here"/*.json "$here"/*.las "$here"/*.sh "$here"/*.py "$room/$name" || exit 2
    (
        cd "$room/$name" || exit 2
        "$@" > "$found/printed" 2> "$found/said"
        echo $? > "$found/code"
    )
    for file in "$room/$name"/*; do
        given=$here/$(basename "$file")
        if [ ! -e "$given" ]; then
            cp -r "$file" "$found/"
        elif ! cmp -s "$file" "$given"; then
            echo changed > "$found/$(basename "$file")"
        fi
    done
    if diff -r "$here/expected/$name" "$found"; then
        echo "passed $name"
    else
        echo "FAILED $name"
        status=1
    fi
}

for pipeline in "$here"/*.json; do
    name=$(basename "$pipeline" .json)
    try "$name" lasline run "$name.json"
done

# Many files, one after the other and two at once. One of them isn't read.
one_by_one() {
    code=0
    for file in hill.las old*.las; do ./each.sh "$file" || code=1; done
    return "$code"
}
two_at_once() { printf '%s\0' hill.las old*.las | xargs -0 -n 1 -P 2 ./each.sh; }
try one_by_one one_by_one
try two_at_once two_at_once

# 200 files into one, here the same one so many times.
many_into_one() {
    mkdir tiles
    for number in $(seq 200); do cp old.las "tiles/$number.las"; done
    ./merge.sh merged.las '{"forward":"all"}' tiles/*.las
    code=$?
    rm -r tiles
    return "$code"
}
try many_into_one many_into_one
try not_merged ./merge.sh merged.las '{"forward":"all"}' south.las older.las north.las

try header ./header.sh coast.las
headers() { ./header.sh south.las && ./header.sh older.las; }
try headers headers

# A name with signs that a shell looks at is taken as it is, and one with a # isn't taken for an output.
odd_names() {
    odd="-an \$odd 'name' \"of\" two.las"
    cp old.las "./$odd"
    ./each.sh "$odd" && ./header.sh "$odd" && ./merge.sh -merged.las '{"forward":"all"}' "$odd" "$odd" || return 1
    mv "ground/$odd" each.las && mv ./-merged.las merged.las
    rm -r ground "./$odd"
    cp old.las "an #1.las"
    ./each.sh "an #1.las" && return 1
    rm "an #1.las"
    ./merge.sh "all #1.las" '{"forward":"all"}' old.las old.las
}
try odd_names odd_names

# A survey of 40 tiles, in rows of 8: what is looked at are the rows and the table.
by_rows() {
    ./make.py --tiles tiles || return
    log=$room/by_rows.log
    snakemake -s "$here/survey/Snakefile" -j 4 --config cell=40 > "$log" 2>&1 || {
        code=$?
        cat "$log"
        return "$code"
    }
    rm -r tiles ground thin reports
}
if command -v snakemake > /dev/null; then
    try by_rows by_rows
else
    echo "left out by_rows: snakemake isn't there"
fi

gps_times() { lasline run columns.json && ./times.py hill.csv && rm hill.csv; }
try times gps_times
exit $status
