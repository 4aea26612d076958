#!/bin/sh
# runs.sh W [RULE ..]: boots the stock kernel once with each driver, and counts the verdicts on the runs. Without RULE:
# the right one, and each that leaves a rule out. The runs are kept in W/runs/RULE. Ends with status 1 if a driver was
# blamed for another rule.
#
# In the environment: ROUNDS (100), SECONDS_MOST of a boot (300), TAG (is put behind the files' names), and the
# variables of boot.sh.
#
# Drivers whose entries may be stale do not write: their writes would go to pages that are the guest's again. Those
# whose rule is about migrations have a device with coherent memory, and some of them a slow one.
set -eu
case ${1-} in --help | -h) sed -n '2,/^set/{/^#/s/^# \{0,1\}//p}' "$0"; exit 0 ;; esac
here=$(cd "$(dirname "$0")" && pwd)
work=${1:?the folder that build.sh filled}
shift
# shellcheck disable=SC2046   # each rule is a word
[ $# -gt 0 ] || set -- $("$here/edit_rules.py" --rules)
memory=" $("$here/edit_rules.py" --memory) "
mkdir -p "$work/runs"
status=0
for rule in "$@"; do
    writes=0 device=0 delay=300 removes=0
    case $rule in
        right | write-entry) writes=3 ;;
        set-moved | drop-lost) delay=3000 ;;
        take-from-there | withdraw-first) writes=3 removes=1 ;;
    esac
    case $memory in
        *" $rule "*) device=2 ;;
    esac
    out=$work/runs/$rule${TAG:-}
    ROUNDS=${ROUNDS:-100} WRITES=${WRITES:-$writes} DEVICE=${DEVICE:-$device} DELAY=${DELAY:-$delay} \
        REMOVES=${REMOVES:-$removes} \
        "$here/boot.sh" "$work" "$rule" "$out" "${SECONDS_MOST:-300}"
    "$here/../trace_runs.py" --expect "$rule" "$out" || status=1
    grep -v 'Command line' "$out.console" | grep -E 'Oops|BUG|panic|WARNING' | head -n 2 || true
done
exit "$status"
