#!/bin/sh
# shellcheck shell=dash
# suite_run.sh FOLDER OUT SECONDS: loads the probes and the module of holds, makes the runs of FOLDER/plan, and unloads
# both. As root; suite.py calls it, on this machine or in a guest. FOLDER has hmm_probes.ko, hmm_steer.ko, steer_runs,
# the plan, and `words`: a line for each module, with its parameters. The driver's module is loaded already.
#
# Ends with status 0, or 1 if a module was not loaded: the end of the kernel's log says why.
set -eu
folder=$1
debug=/sys/kernel/debug
[ -n "$(ls -A "$debug")" ] || mount -t debugfs debug "$debug"
words() { sed -n "s/^$1 //p" "$folder/words"; }
trap 'rmmod hmm_steer 2> /dev/null || true; rmmod hmm_probes 2> /dev/null || true' EXIT
# shellcheck disable=SC2046   # each parameter is a word of its own
insmod "$folder/hmm_probes.ko" $(words hmm_probes)
# the holds come last: a thread that is held at a return has its event in the trace, and one at an entry has not
# shellcheck disable=SC2046
insmod "$folder/hmm_steer.ko" $(words hmm_steer)
"$folder/steer_runs" "$folder/plan" "$2" "$3"
