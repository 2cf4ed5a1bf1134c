#!/bin/sh
# Merges LAS files into one, in the order in which they are named. A pipeline has at most 64 stages, so more than 60 files are
# merged 60 at a time, and then what came of that.
#
#     examples/merge.sh OUT OPTIONS FILE ..
#
# OPTIONS are options of writers.las as a JSON object, such as '{"forward":"all"}'. The report of the last run is printed. The
# exit code is that of the first run that was refused, and then OUT isn't made; what its stage 0 read is named on standard error.
# Until the end a folder OUT.parts holds the points once more. In OUT no `#` may stand, which stands for the number of a view.
if [ $# -lt 3 ]; then
    echo "usage: examples/merge.sh OUT OPTIONS FILE .." >&2
    exit 2
fi
out=$1
options=$2
shift 2
case $out in
*\#*)
    echo "examples/merge.sh: $out would be files of views: take the # out of it" >&2
    exit 2
    ;;
-*) out=./$out ;;
esac
room=$out.parts
mkdir "$room" || exit 4
trap 'rm -rf "$room"' EXIT
trap 'exit 130' INT TERM

# join N OUT FILE ..: the first N of the files become OUT.
join() {
    jq -n --argjson count "$1" --arg out "$2" --argjson options "$options" '
      [$ARGS.positional[2:2 + $count][] | {"type":"readers.las","filename":.}]
      + [$options + {"type":"writers.las","filename":$out}]' --args -- "$@" > "$room/pipeline.json" || exit 2
    lasline run "$room/pipeline.json" > "$room/report" && return
    code=$?
    echo "$2: exit code $code; stage 0 was $3" >&2
    return "$code"
}

number=0
while [ $# -gt 60 ]; do
    # What comes of a batch stands last, after the files that are left of this round.
    left=$#
    while [ "$left" -gt 0 ]; do
        size=60
        [ "$left" -ge 60 ] || size=$left
        number=$((number + 1))
        join "$size" "$room/$number.las" "$@" || exit
        shift "$size"
        set -- "$@" "$room/$number.las"
        left=$((left - size))
    done
done
join $# "$out" "$@" && cat "$room/report"
