#!/bin/sh
# suites.sh W [RULE ..]: runs suite.py in a guest with each driver of edit_rules.py: the right one, and each that leaves a
# rule out. Keeps W/suites/RULE.tap, and the runs as RULE.runs; suite_table.py makes a table of them. Ends with status 1 if
# a driver was blamed for another rule, or a broken one for none.
#
# In the environment: RUNS (of each rule, 20), SECONDS_MOST (of a boot, 400), ONLY_OWN (1: the driver's own rule alone),
# and the variables of ../linux/boot.sh.
set -eu
case ${1-} in --help | -h) sed -n '2,/^set/{/^#/s/^# \{0,1\}//p}' "$0"; exit 0 ;; esac
here=$(cd "$(dirname "$0")" && pwd)
work=${1:?the folder that build.sh filled}
shift
# shellcheck disable=SC2046   # each rule is a word
[ $# -gt 0 ] || set -- $("$here/edit_rules.py" --rules)
mkdir -p "$work/suites"
status=0
for rule in "$@"; do
    out=$work/suites/$rule
    own=
    [ -z "${ONLY_OWN:-}" ] || [ "$rule" = right ] || own="--rules $rule"
    start=$(date +%s)
    # shellcheck disable=SC2086   # no word, or two
    "$here/suite.py" "$here/test_hmm.conf" --guest "$work" --driver "$rule" --only-expect "$rule" --runs "${RUNS:-20}" \
        --seconds "${SECONDS_MOST:-400}" --keep "$out.runs" $own > "$out.tap" || status=1
    echo "# $rule: $(($(date +%s) - start)) seconds" >> "$out.tap"
    grep '^not ok' "$out.tap" || [ "$rule" = right ] || echo "$rule: nothing is broken"
done
exit "$status"
