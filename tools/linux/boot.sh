#!/bin/sh
# boot.sh W KERNEL IN OUT [SECONDS]: boots W/bzImage.KERNEL (stock or changed) in qemu, gives the guest the file IN, and
# writes what it answers to OUT and the console to OUT.console. Gives up after SECONDS (600).
#
# If it is told to end, qemu ends with it.
#
# In the environment: ACCEL (tcg, which works without /dev/kvm; kvm is faster where it works), CPU (max; host with
# kvm), CPUS (2), MEM (768), APPEND (more words for the kernel), QEMU (more words for qemu).
set -eu
case ${1-} in --help | -h) sed -n '2,/^set/{/^#/s/^# \{0,1\}//p}' "$0"; exit 0 ;; esac
work=${1:?the folder that build.sh filled}
kernel=$work/bzImage.${2:?stock or changed}
in=${3:?the file that the guest reads}
out=${4:?the file for its answers}
most=${5:-600}
folder=$(mktemp -d)
qemu=
trap 'rm -r "$folder"' EXIT
trap '[ -z "$qemu" ] || kill "$qemu"; exit 1' INT TERM
cp "$in" "$folder/in"
(cd "$folder" && echo in | cpio -o -H newc --quiet > in.cpio)
cat "$work/base.cpio" "$folder/in.cpio" > "$folder/initrd"
case ${ACCEL:-tcg} in
    tcg) accel=tcg,thread=multi ;;
    *) accel=$ACCEL ;;
esac
words="console=ttyS0 earlyprintk=ttyS0 quiet panic=-1 no_timer_check rdinit=/runner random.trust_cpu=on"
# shellcheck disable=SC2086   # each of QEMU is a word
timeout --kill-after=10 "$most" qemu-system-x86_64 -accel "$accel" \
    -cpu "${CPU:-max}" -smp "${CPUS:-2}" -m "${MEM:-768}" ${QEMU:-} \
    -nodefaults -no-user-config -display none -no-reboot -kernel "$kernel" -initrd "$folder/initrd" \
    -serial "file:$out.console" -serial "file:$out" \
    -append "$words ${APPEND:-}" \
    < /dev/null &
qemu=$!
wait "$qemu" || echo "boot.sh: qemu ended with status $?" >&2
