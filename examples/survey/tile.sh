#!/bin/sh
# Takes a tile of a survey through one pipeline: its bounds and classes, its ground, and that thinned to the first point of each voxel.
# The report has the lines `tally bounds` and `tally classes`; the pipeline stands beside it. The exit code is that of the run; where
# it isn't 0, the tile is named on standard error, and there is no report.
#
#     examples/survey/tile.sh TILE GROUND THIN REPORT CELL
#
# The folders of what is written have to be there. Part files of GROUND and THIN, as a killed run leaves them, are removed: let no
# two runs write the same files.
if [ $# -ne 5 ]; then
    echo "usage: examples/survey/tile.sh TILE GROUND THIN REPORT CELL" >&2
    exit 2
fi
case $2$3$4 in
*\#*)
    echo "$1: not taken, since an output with a # in its name would be files of views" >&2
    exit 2
    ;;
esac
report=$4
case $report in
-*) report=./$report ;;
esac
rm -f -- "$2.lasline-part" "$3.lasline-part" "$report"
jq -n --arg tile "$1" --arg ground "$2" --arg thin "$3" --arg cell "$5" '
  [{"type":"readers.las","filename":$tile},
   {"type":"writers.tally","tally":"bounds"},
   {"type":"writers.tally","tally":"classes"},
   {"type":"filters.range","limits":"Classification[2:2]"},
   {"type":"writers.las","filename":$ground,"forward":"all"},
   {"type":"filters.voxeldownsize","cell":$cell},
   {"type":"writers.las","filename":$thin,"forward":"all"}]' > "$report.json" || exit 1
lasline run "$report.json" > "$report.new"
code=$?
if [ "$code" -ne 0 ]; then
    rm -f "$report.new"
    echo "$1: exit code $code" >&2
    exit "$code"
fi
mv "$report.new" "$report"
