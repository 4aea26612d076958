#!/bin/busybox sh
# shellcheck shell=dash disable=SC1091
# The guest's init for suite.py: loads the driver, makes the runs, and switches the machine off. /in has the driver, the
# plan and the words.
/bin/busybox --install -s /bin
mkdir -p /proc /sys /dev /tmp
mount -t proc proc /proc
mount -t sysfs sys /sys
mount -t devtmpfs dev /dev
mount -t debugfs debug /sys/kernel/debug
tar x -f /in -C /steer
stty -F /dev/ttyS1 raw -echo
driver=$(sed -n 's/^module //p' /steer/words)
# shellcheck disable=SC2046,SC2086 # each word is a parameter
insmod "/steer/$driver" $(sed -n 's/^load //p' /steer/words)
[ ! -e /steer/first.sh ] || sh /steer/first.sh
sh /steer/suite_run.sh /steer /dev/ttyS1 "$(sed -n 's/^seconds //p' /steer/words)"
echo "suite_init.sh: suite_run.sh ended with status $?"
[ ! -e /steer/last.sh ] || sh /steer/last.sh
dmesg | grep -E 'hmm_steer|hmm_probes|BUG|Oops|WARNING' | tail -n 20
poweroff -f
