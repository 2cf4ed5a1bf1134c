#!/bin/sh
# Holds docs/ERRORS.md to the program: each text of crates/run_report/src has to stand in it, as whole words of a piece of code,
# and each refusal of the cases in crates/worked_runs/data has to fit one of its lines, below its exit code. It names what doesn't.
cd "$(dirname "$0")/.." || exit 2

awk '
    # What stands between two backticks of a line.
    FILENAME == "docs/ERRORS.md" {
        if ($0 ~ /^## /) code = $0 ~ /^## Exit code / ? substr($4, 1, 1) : ""
        count = split($0, parts, "`")
        for (i = 2; i < count; i += 2) {
            spans[++span_count] = parts[i]
            if (code != "" && parts[i] ~ /^lasline: ./) { lines[++line_count] = as_pattern(parts[i]); codes[line_count] = code }
        }
        next
    }

    # A line of the document as a pattern of what is printed.
    function as_pattern(text,    words, count, i, pattern) {
        count = split(text, words, " ")
        for (i = 1; i <= count; i++) {
            gsub(/[.*+?()|]/, "[&]", words[i])
            sub(/^NAME/, ".+", words[i]); sub(/^N/, "[0-9]+", words[i]); sub(/^AXIS/, "[XYZ]", words[i])
            pattern = pattern (i > 1 ? " " : "") words[i]
        }
        return "^" pattern "$"
    }

    function is_letter(text) { return text ~ /^[A-Za-z0-9_]$/ }

    # Whether two characters beside one another stand in one word.
    function is_inside(before, after) { return is_letter(before) && is_letter(after) }

    # Whether a text stands as whole words in a piece of code.
    function stands(text,    i, at, done, span) {
        for (i = 1; i <= span_count; i++) {
            span = " " spans[i] " "
            done = 0
            while ((at = index(substr(span, done + 1), text)) > 0) {
                at += done
                done = at
                if (is_inside(substr(span, at - 1, 1), substr(text, 1, 1))) continue
                if (is_inside(substr(text, length(text)), substr(span, at + length(text), 1))) continue
                return 1
            }
        }
        return 0
    }

    function missing(why) { print why; wrong = 1 }

    # The texts of the program, but for those of comments and contracts.
    FILENAME ~ /\.rt$/ {
        if ($0 ~ /^ *(\/\/|ghost |requires |ensures |invariant )/) next
        rest = $0
        while (match(rest, /"([^"\\]|\\.)*"/)) {
            text = substr(rest, RSTART + 1, RLENGTH - 2)
            rest = substr(rest, RSTART + RLENGTH)
            gsub(/\\n/, "", text); gsub(/^ +| +$/, "", text)
            if (text == "") continue
            texts++
            if (!stands(text)) missing("docs/ERRORS.md has no `" text "` of " FILENAME)
        }
        next
    }

    # The refusals of the cases, but for those of the file that says what must not come.
    FILENAME ~ /runner\.txt$/ { next }
    $1 == "refused" && NF > 2 {
        text = $0; sub(/^ *refused [0-9]+ /, "lasline: ", text)
        refusals++
        for (i = 1; i <= line_count; i++) if (codes[i] == $2 && text ~ lines[i]) next
        missing("docs/ERRORS.md has no line below exit code " $2 " for `" text "` of " FILENAME)
    }

    END {
        if (texts < 40 || refusals < 100 || line_count < 40) missing("docs/check-errors.sh found too little: it has to follow the files that it reads")
        if (!wrong) print "docs/ERRORS.md has " texts " texts and " refusals " refusals"
        exit wrong
    }
' docs/ERRORS.md crates/run_report/src/*.rt crates/worked_runs/data/*.txt
