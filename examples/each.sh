#!/bin/sh
# Writes the ground points of a LAS file into the folder ground/, under the name of the file, and beside them the pipeline and the
# report. Of two files of one name, in different folders, the later one replaces what came of the other. The exit code is that of
# the run. Where it isn't 0, the file is named on standard error.
#
#     examples/each.sh FILE
#
# A file with a `#` in its name isn't taken: in the name of an output that stands for the number of a view.
if [ $# -ne 1 ]; then
    echo "usage: examples/each.sh FILE" >&2
    exit 2
fi
name=$(basename -- "$1")
case $name in
*\#*)
    echo "$1: not taken, since an output of this name would be files of views: take the # out of it" >&2
    exit 2
    ;;
esac
mkdir -p ground || exit 1
jq -n --arg in "$1" --arg out "ground/$name" '
  [{"type":"readers.las","filename":$in},
   {"type":"filters.range","limits":"Classification[2:2]"},
   {"type":"writers.las","filename":$out,"forward":"all"}]' > "ground/$name.json" || exit 1
lasline run "ground/$name.json" > "ground/$name.report"
code=$?
[ "$code" -eq 0 ] || echo "$1: exit code $code" >&2
exit "$code"
