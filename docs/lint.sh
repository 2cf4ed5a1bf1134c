#!/bin/sh
# Looks at what no proof and no test sees: the scripts by shellcheck, the manual page by groff, the completions by bash and zsh,
# and whether examples/make.py writes the stored files. Where a tool isn't there, that is said, and what it would look at is left
# out.
#
#     docs/lint.sh FOLDER     the folder is for what examples/make.py writes
cd "$(dirname "$0")/.." || exit 2
if [ $# -ne 1 ]; then
    echo "usage: docs/lint.sh FOLDER" >&2
    exit 2
fi
room=$1
status=0

# passed NAME CODE: what was looked at, and what came of it.
passed() {
    if [ "$2" -eq 0 ]; then
        echo "passed $1"
    else
        echo "FAILED $1"
        status=1
    fi
}

has() {
    command -v "$1" > /dev/null && return
    echo "left out $2: $1 isn't there"
    return 1
}

# The scripts, by their first lines; the completions for bash have none.
scripts=$(grep -l -E '^#!(/usr/bin/env |/bin/)(sh|bash)' .ci/* ./*/*.sh examples/*/*.sh)
if has shellcheck "the scripts"; then
    # shellcheck disable=SC2086
    shellcheck $scripts
    passed "shellcheck over $(echo "$scripts" | wc -l) scripts" $?
    shellcheck --shell=bash completions/lasline.bash
    passed "shellcheck over the completions" $?
fi

if has groff "the manual page"; then
    said=$(groff -ww -man -T utf8 man/lasline.1 2>&1 > /dev/null)
    [ -z "$said" ] || echo "$said"
    passed "groff -ww over the manual page" "$([ -z "$said" ]; echo $?)"
fi

if has bash "the completions for bash"; then
    bash -n completions/lasline.bash
    passed "bash -n over the completions" $?
    bash docs/lint-completions.sh
    passed "a run of the completions" $?
fi
if has zsh "the completions for zsh"; then
    zsh -n completions/_lasline
    passed "zsh -n over the completions" $?
fi

if has python3 "examples/make.py"; then
    rm -rf "${room:?}"
    mkdir -p "$room"
    examples/make.py "$room" && diff -r -x '*.json' -x '*.sh' -x '*.py' -x __pycache__ -x own_filter -x survey examples "$room"
    passed "examples/make.py writes the stored files" $?
fi
exit $status
