#!/usr/bin/env bash
# tools/word_cases.sh [PROGRAM]: what hmmrun.sh and its siblings make of words, well given and badly. No program is built
# or run: one that writes its words stands in the place of each.
#
# tools/word_cases.tsv has a line for each case: a program, the words as a shell reads them, and what is said first, or
# `=` and the words that the program gets; `(none)` is no word. Writes the cases that differ, and `N cases, M wrong`;
# status 1 if M is not 0.
set -u
here=$(cd "$(dirname "$(realpath "$0")")/.." && pwd)
top=$(mktemp -d) || exit 2
trap 'rm -rf "$top"' EXIT
mkdir "$top/bin" "$top/docs"
cp "$here"/hmm*.sh "$top"
cp "$here/docs/BROKEN.md" "$top/docs"
ln -s "$here/tools" "$here/examples" "$top"
echo 'none' >"$top/COMMIT"
for name in hmmrun hmmraces hmmwithout hmmjudge hmmview hmmtrace hmmevents; do
    printf '#!/bin/sh\nprintf "=%%s\\n" "$*"\n' >"$top/bin/$name"
    chmod +x "$top/bin/$name"
done
cd "$top" || exit 2
printf 'hmm 2\n' >FILE
printf 'none a0 loaded 0x10000 41\n' >LINES
printf '# from Windows\r\n\r\nnone a0 loaded 0x10000 41\r\n' >WINDOWS
cases=0 wrong=0
while IFS=$'\t' read -r program words wanted; do
    case $program in '' | '#'*) continue ;; esac
    [ $# -eq 0 ] || [ "$1" = "$program" ] || continue
    cases=$((cases + 1))
    [ "$words" != '(none)' ] || words=
    said=$(eval "./$program.sh $words" 2>&1 </dev/null | head -n 1)
    said=${said#"$program: "}
    [ "$said" = "$wanted" ] && continue
    wrong=$((wrong + 1))
    printf '%s %s\n  said:   %s\n  wanted: %s\n' "$program" "$words" "$said" "$wanted"
done <"$here/tools/word_cases.tsv"
echo "$cases cases, $wrong wrong"
[ "$wrong" -eq 0 ]
