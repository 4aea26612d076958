#!/bin/sh
# boot.sh W RULE OUT [SECONDS]: boots the stock kernel in qemu (../linux/boot.sh) with the driver W/drivers/RULE and the
# probes, and writes the runs' traces to OUT, the console to OUT.console. Gives up after SECONDS (600).
#
# In the environment: ROUNDS (40), WRITES (of eight calls of the driver, 3), DELAY (microseconds, 300), DEVICE (0, or 2
# for one with coherent memory), FIRST (the first run's number, 0), SIZE (events that the probes have room for), REMOVES
# (1: each round removes that memory, 0), and the words of ../linux/boot.sh: ACCEL, CPU, CPUS, MEM.
set -eu
case ${1-} in --help | -h) sed -n '2,/^set/{/^#/s/^# \{0,1\}//p}' "$0"; exit 0 ;; esac
here=$(cd "$(dirname "$0")" && pwd)
work=${1:?the folder that build.sh filled}
rule=${2:?a rule, or right}
out=${3:?the file for the runs}
most=${4:-600}
device=${DEVICE:-0}
folder=$(mktemp -d)
qemu=
trap 'rm -r "$folder"' EXIT
trap '[ -z "$qemu" ] || kill "$qemu"; exit 1' INT TERM
spm=
memory=
if [ "$device" != 0 ]; then
    # two spans of the guest's memory that the kernel does not use, for the driver's coherent devices
    spm="spm_addr_dev0=0x28000000 spm_addr_dev1=0x29000000"
    memory="memmap=32M\$0x28000000"
fi
cat > "$folder/plan" << PLAN
RULE=$rule ROUNDS=${ROUNDS:-40} WRITES=${WRITES:-3} SECONDS_MOST=$most DEVICE=$device DELAY=${DELAY:-300}
FIRST=${FIRST:-0} SIZE=${SIZE:-131072} REMOVES=${REMOVES:-0}
SPM="$spm"
PLAN
cp "$work/drivers/$rule/test_hmm.ko" "$folder/"
tar c -f "$folder/in.tar" -C "$folder" plan test_hmm.ko
APPEND="mitigations=off nokaslr $memory" "$here/../linux/boot.sh" "$work" debian "$folder/in.tar" "$out" "$most" &
qemu=$!
wait "$qemu"
