#!/bin/sh
# Builds the program of own_filter/, which has a filter of its own, and runs its pipeline, in the folder that is named; and compares
# the exit code, what was printed and said, and the file that is kept with those of expected/rising.
#
#     examples/own_filter.sh target/own_filter
#
# The program is one crate more in a copy of the repository's crates. What make has proved of those is taken as it is, and what it
# hasn't is proved there. rt ci refuses sources outside of crates/, so here their names end in .txt, and the copy is removed.
if [ $# -ne 1 ]; then
    echo "usage: examples/own_filter.sh FOLDER" >&2
    exit 2
fi
here=$(cd "$(dirname "$0")" && pwd) || exit 2
top=$(dirname "$here")
mkdir -p "$1" && room=$(cd "$1" && pwd) || exit 2
copy=$room/copy
trap 'rm -rf "${copy:?}"' EXIT
trap 'exit 2' HUP INT TERM
rm -rf "${copy:?}" "$room/run" "$room/found" "$room/own_filter"
mkdir -p "$copy/crates/own_filter" "$room/run" "$room/found" || exit 2

# The repository with one crate more.
cp "$top/HANDLES" "$copy/" || exit 2
grep -v '^own_filter:' "$top/crates.txt" > "$copy/crates.txt"
echo "own_filter: lasline_top plug_stages real_files cloud_points" >> "$copy/crates.txt"
for crate in "$top"/crates/*; do
    to=$copy/crates/$(basename "$crate")
    mkdir -p "$to"
    for part in src specs proofs; do
        [ ! -d "$crate/$part" ] || cp -R "$crate/$part" "$to/" || exit 2
    done
    # What is proved takes gigabytes, so it is linked.
    if [ -e "$crate/out/rlib/stamp" ]; then
        mkdir "$to/out"
        cp -Rl "$crate/out/rlib" "$to/out/" || exit 2
    fi
done
cd "$here/own_filter" || exit 2
find src specs proofs -name '*.txt' | while read -r file; do
    mkdir -p "$copy/crates/own_filter/$(dirname "$file")"
    cp "$file" "$copy/crates/own_filter/${file%.txt}"
done

# The build ends with a run without words, whose answer doesn't count.
echo "proving and building own_filter: $room/build.log tells all"
cd "$copy/crates/own_filter" || exit 2
rt run > "$room/build.log" 2>&1
if [ ! -x out/own_filter ]; then
    grep -v "^statements" "$room/build.log" | tail -n 20
    echo "FAILED own_filter"
    exit 1
fi
cp out/own_filter "$room/" || exit 2

cd "$room/run" || exit 2
cp "$here/hill.las" "$here/own_filter/rising.json" . || exit 2
../own_filter run rising.json > ../found/printed 2> ../found/said
echo $? > ../found/code
[ ! -e rising.txt ] || cp rising.txt ../found/
if ! diff -r "$here/expected/rising" "$room/found"; then
    echo "FAILED own_filter"
    exit 1
fi
echo "passed own_filter"
