#!/bin/sh
# record.sh MODULE OUT PARAMETER .. -- COMMAND ..: loads the probes, runs the command, writes the trace to OUT, and
# unloads the probes. As root; the driver's module is loaded already. Ends with the command's status.
#
#   record.sh ./hmm_probes.ko run.trace callback=my_invalidate set=my_set erase=my_erase table=16 -- ./my_test
#
# MODULE is what build.sh or `make M=..` has made of hmm_probes.c for the kernel that runs; `modinfo MODULE` has all
# parameters. If events are missing, the last line of the trace is `lost ..`, and this says so.
set -eu
case ${1-} in --help | -h) sed -n '2,/^set/{/^#/s/^# \{0,1\}//p}' "$0"; exit 0 ;; esac
usage() {
    echo 'usage: record.sh MODULE OUT PARAMETER .. -- COMMAND ..' >&2
    exit 2
}
[ $# -ge 4 ] || usage
module=$1
out=$2
shift 2
debug=/sys/kernel/debug
parameters=
while [ "$1" != -- ]; do
    parameters="$parameters $1"
    shift
    [ $# -gt 0 ] || usage
done
shift
[ $# -gt 0 ] || usage
[ -n "$(ls -A "$debug")" ] || mount -t debugfs debug "$debug"
# shellcheck disable=SC2086   # each parameter is a word of its own
insmod "$module" $parameters || {
    echo 'record.sh: the probes were not loaded; the end of the kernel log (dmesg) says why' >&2
    exit 1
}
trap 'rmmod hmm_probes' EXIT
status=0
"$@" || status=$?
cat "$debug/hmm_probes/trace" > "$out"
case $(tail -n 1 "$out") in
    lost*) echo "record.sh: the trace is not whole: $(tail -n 1 "$out"); size=N makes room for more" >&2 ;;
esac
exit "$status"
