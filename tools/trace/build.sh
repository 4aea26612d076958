#!/bin/sh
# build.sh W: fills the folder W with all that boot.sh and suite.py need: Debian's stock kernel, busybox, the probes, the
# module of holds, the drivers.
#
# Needs Debian 12 and these packages (as root):
#   apt-get install build-essential cpio qemu-system-x86 python3 linux-source-6.1 linux-headers-6.1.0-57-amd64
# The kernel's package is not installed: its image is taken out. VERSION (6.1.0-57) in the environment is another one;
# its headers must be there. What is there already is not fetched again; the probes and the drivers are made anew.
set -eu
case ${1-} in --help | -h) sed -n '2,/^set/{/^#/s/^# \{0,1\}//p}' "$0"; exit 0 ;; esac
here=$(cd "$(dirname "$0")" && pwd)
mkdir -p "${1:?a folder to build in}"
work=$(cd "$1" && pwd)
version=${VERSION:-6.1.0-57}
headers=/usr/src/linux-headers-$version-amd64
[ -d "$headers" ] || { echo "build.sh: there is no $headers" >&2; exit 2; }
cd "$work"
if [ ! -e bzImage.debian ]; then
    apt-get download "linux-image-$version-amd64" busybox-static
    dpkg-deb --fsys-tarfile linux-image-*.deb | tar x "./boot/vmlinuz-$version-amd64"
    dpkg-deb --fsys-tarfile busybox-static*.deb | tar x ./bin/busybox
    cp bin/busybox busybox
    cp "boot/vmlinuz-$version-amd64" bzImage.debian
fi
[ -e linux-source-6.1/lib/test_hmm.c ] || tar xf /usr/src/linux-source-6.1.tar.xz linux-source-6.1/lib/test_hmm.c \
    linux-source-6.1/lib/test_hmm_uapi.h
mkdir -p probes
cp "$here/hmm_probes.c" probes/
echo 'obj-m := hmm_probes.o' > probes/Makefile
make -s -C "$headers" M="$work/probes" modules
mkdir -p steer
cp "$here/hmm_steer.c" steer/
echo 'obj-m := hmm_steer.o' > steer/Makefile
make -s -C "$headers" M="$work/steer" modules
for rule in $(python3 "$here/edit_rules.py" --rules); do
    python3 "$here/edit_rules.py" linux-source-6.1 "$rule" "drivers/$rule"
    make -s -C "$headers" M="$work/drivers/$rule" modules
done
gcc -O2 -static -Wall -pthread -Idrivers/right -o racer "$here/racer.c"
gcc -O2 -static -Wall -pthread -Idrivers/right -o steer/steer_runs "$here/steer_runs.c" "$here/calls_test_hmm.c"

# the guest, but for the driver and its plan
rm -rf guest
mkdir -p guest/bin guest/dev
cp busybox guest/bin/busybox
cp racer probes/hmm_probes.ko "$here/record.sh" guest/
cp "$here/init.sh" guest/runner
chmod +x guest/runner
(cd guest && find . | cpio -o -H newc --quiet) > base.cpio

# the guest of suite.py
rm -rf steer/guest
mkdir -p steer/guest/bin steer/guest/dev steer/guest/steer
cp busybox steer/guest/bin/busybox
cp probes/hmm_probes.ko steer/hmm_steer.ko steer/steer_runs "$here/suite_run.sh" steer/guest/steer/
cp "$here/suite_init.sh" steer/guest/runner
chmod +x steer/guest/runner
(cd steer/guest && find . | cpio -o -H newc --quiet) > steer/base.cpio
ln -sf ../bzImage.debian steer/bzImage.debian
echo "built: Linux $version-amd64"
