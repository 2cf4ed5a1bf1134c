#!/bin/sh
# Tries what needs no proof, in the folder that is named: the checks of the libraries, the cases of the command, the pipelines and
# scripts of examples/, and the documents. Programs are built by rt try, which proves nothing.
#
#     docs/try.sh target/check
#
# The scripts of examples/ need jq, and some of all this Python 3.
if [ $# -ne 1 ]; then
    echo "usage: docs/try.sh FOLDER" >&2
    exit 2
fi
cd "$(dirname "$0")/.." || exit 2
mkdir -p "$1" && room=$(cd "$1" && pwd) || exit 2
rm -rf "${room:?}"/* || exit 2
mkdir "$room/tmp" || exit 2

# try NAME: a program on the files of its data/ and the words of its args, whose lines have to be those of its stdout.
try() (
    cd "crates/$1" || exit 2
    set --
    for file in data/*; do
        [ ! -f "$file" ] || set -- "$@" --data "$(basename "$file")=$file"
    done
    set -- "$@" --
    if [ -f args ]; then
        while IFS= read -r word; do set -- "$@" "$word"; done < args
    fi
    name=$(basename "$(pwd)")
    rt try --seconds 1200 "$@" > "$room/$name.printed" 2> "$room/$name.said"
    if diff stdout "$room/$name.printed" > "$room/$name.diff"; then
        echo "passed $name: $(tail -n 1 stdout)"
    else
        tail -n 3 "$room/$name.said"
        head -n 20 "$room/$name.diff"
        echo "FAILED $name"
        exit 1
    fi
)

# The examples want the program as a file. rt try removes the one that it builds, so that is copied while it waits for its pipeline
# to be written: it runs once a process has it mapped.
build() (
    mkfifo "$room/pipeline" || exit 2
    cd crates/lasline || exit 2
    TMPDIR=$room/tmp rt try --seconds 600 -- run "$room/pipeline" < /dev/null > "$room/lasline.said" 2>&1 &
    while kill -0 $! 2> /dev/null && ! grep -hs "r-xp" /proc/[0-9]*/maps | grep -qF "$room/tmp/"; do sleep 1; done
    find "$room/tmp" -type f -name program -exec cp {} "$room/lasline" \;
    while kill -0 $! 2> /dev/null; do
        : <> "$room/pipeline"
        sleep 1
    done
    [ -x "$room/lasline" ] || { tail -n 20 "$room/lasline.said"; echo "FAILED lasline: not built"; exit 1; }
)

# As many at once as there are programs: each takes one processor and one gigabyte.
programs="worked_values worked_stages worked_devices worked_threads worked_runs"
for name in $programs; do
    { try "$name" > "$room/$name.told" 2>&1; echo $? > "$room/$name.status"; } &
done
status=0
build && examples/run.sh "$room/lasline" "$room/examples" || status=1
wait
for name in $programs; do
    cat "$room/$name.told"
    [ "$(cat "$room/$name.status")" = 0 ] || status=1
done
docs/check-errors.sh || status=1
docs/check.sh || status=1
exit $status
