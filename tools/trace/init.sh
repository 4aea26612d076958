#!/bin/busybox sh
# shellcheck shell=dash disable=SC1091
# The guest's init: loads the driver and the probes, makes the runs, and switches the machine off. /in has the driver
# and the plan.
/bin/busybox --install -s /bin
mkdir -p /proc /sys /dev /tmp
mount -t proc proc /proc
mount -t sysfs sys /sys
mount -t devtmpfs dev /dev
mount -t debugfs debug /sys/kernel/debug
tar x -f /in -C /tmp
. /tmp/plan                 # RULE ROUNDS WRITES SECONDS DEVICE DELAY FIRST SIZE REMOVES, SPM: words for the driver
stty -F /dev/ttyS1 raw -echo
# shellcheck disable=SC2086 # SPM is nothing, or two words
insmod /tmp/test_hmm.ko race_delay="$DELAY" $SPM
# table, object and owner: edit_rules.py asserts in the driver that they are these
sh /record.sh /hmm_probes.ko /tmp/last size="$SIZE" callback=dmirror_interval_invalidate set=xa_store erase=xa_erase \
    reads=dmirror_do_read writes=dmirror_do_write takes=dmirror_devmem_alloc_page frees=dmirror_devmem_free \
    withdraws=dmirror_withdrawn table=16 object=24 owner=24 \
    -- /racer "$RULE" "$ROUNDS" "$WRITES" "$SECONDS_MOST" "$DEVICE" /dev/ttyS1 "$FIRST" "$REMOVES"
echo "init.sh: record.sh ended with status $?"
poweroff -f
