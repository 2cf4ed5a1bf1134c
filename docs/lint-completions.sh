#!/bin/bash
# Runs the completions for bash on beginnings of command lines, and says which of them don't give the words that they should.
cd "$(dirname "$0")/.." || exit 2
# shellcheck source=/dev/null
. completions/lasline.bash || exit 2
here=$PWD
room=$(mktemp -d) || exit 2
trap 'rm -rf "$room"' EXIT
status=0
mkdir "$room/files" "$room/files/tiles" "$room/empty"
touch "$room/files/p.json" "$room/files/q.json" "$room/files/a.las" "$room/empty/a.las"

# gives FOLDER WANTED WORD ..: the last word is the one that is being written.
gives() {
    cd "$room/$1" || exit 2
    local wanted=$2 found
    shift 2
    COMP_WORDS=("$@")
    COMP_CWORD=$(($# - 1))
    COMPREPLY=()
    _lasline
    found=$(printf '%s\n' "${COMPREPLY[@]}" | sort | xargs)
    wanted=$(echo "$wanted" | tr ' ' '\n' | sort | xargs)
    if [ "$found" != "$wanted" ]; then
        echo "completions/lasline.bash: after \`$*\` come \`$found\`, and should \`$wanted\`"
        status=1
    fi
    cd "$here" || exit 2
}

gives files "run plan gen trial --help --version" lasline ""
gives files "run" lasline r
gives files "--help --version" lasline --
gives files "p.json q.json tiles" lasline run ""
gives files "p.json" lasline plan p
gives empty "a.las" lasline run ""
gives files "--chunk --patience --queue --stop --whole --workers" lasline run p.json ""
gives files "--chunk --patience --queue --stop --whole --workers" lasline trial 100 --
gives files "--patience --queue --stop --whole --workers" lasline run p.json --chunk 4 ""
gives files "--patience --queue --stop --workers" lasline run p.json --whole --chunk 4 --
gives files "1 2 4 8 16 32" lasline run p.json --workers ""
gives files "first" lasline run p.json --stop ""
gives files "--chunk --patience --queue --whole --workers" lasline run p.json --stop first ""
gives files "1 2 4 8 16 32 64" lasline run p.json --queue ""
gives files "" lasline plan p.json ""
gives files "" lasline gen ""
gives files "a.las" lasline gen 100 a
gives files "" lasline gen 100 a.las ""
gives files "" lasline trial ""
gives files "" lasline --help ""
[ "$status" -ne 0 ] || echo "the completions give their words"
exit "$status"
