#!/bin/sh
# build.sh W [JOBS]: fills the folder W with two kernels and the guest.
#
#   bzImage.stock      Linux 6.1 with its test driver as it is
#   bzImage.changed    the same with the driver as edit_driver.py changes it; mm/ is not touched
#   base.cpio          the guest: its one program, the kernel's hmm-tests, and a few folders
#
# Needs Debian 12 and these packages (as root):
#   apt-get install linux-source-6.1 build-essential flex bison bc libelf-dev cpio lz4 qemu-system-x86 python3
# What is there already is not made again; but the changed kernel is, if edit_driver.py is not the one that it was built
# with. To make all again, remove W. The compiler warns of large frames in test_hmm.c; that is no error.
# With ONLY=stock in the environment the first kernel alone is made; device_files.sh needs no more.
set -eu
case ${1-} in --help | -h) sed -n '2,/^set/{/^#/s/^# \{0,1\}//p}' "$0"; exit 0 ;; esac
here=$(cd "$(dirname "$0")" && pwd)
work=${1:?a folder to build in}
jobs=${2:-2}
mkdir -p "$work"
work=$(cd "$work" && pwd)
cd "$work"
source=$work/linux-source-6.1
if [ ! -d "$source" ]; then
    echo "unpacking the source, a minute or two"
    rm -rf unpacked
    mkdir unpacked
    tar xf /usr/src/linux-source-6.1.tar.xz -C unpacked
    mv unpacked/linux-source-6.1 .
    rmdir unpacked
fi
mkdir -p build

# The driver as it came: kept in W/driver, and put back into the source.
driver_as_it_came() {
    if [ ! -d driver ]; then
        if grep -q race_delay "$source/lib/test_hmm.c"; then
            echo "build.sh: the driver in $source is changed, and there is no copy of it as it came: remove $work" >&2
            exit 2
        fi
        rm -rf driver.part
        mkdir driver.part
        cp "$source/lib/test_hmm.c" "$source/lib/test_hmm_uapi.h" driver.part
        mv driver.part driver
    fi
    cp driver/test_hmm.c driver/test_hmm_uapi.h "$source/lib"
}

# build NAME: the kernel of the source as it is now, as bzImage.NAME.
build() {
    make -C build -j"$jobs" bzImage
    cp build/arch/x86/boot/bzImage bzImage.part
    mv bzImage.part "bzImage.$1"
}

if [ ! -e bzImage.stock ]; then
    driver_as_it_came
    make -s -C "$source" O="$work/build" tinyconfig
    (cd build && bash "$source/scripts/kconfig/merge_config.sh" -m -O . .config "$here/hmm.config")
    make -s -C build olddefconfig
    build stock
fi
[ "${ONLY:-}" != stock ] || exit 0
edits=$(cksum < "$here/edit_driver.py")
if [ ! -e bzImage.changed ] || [ "$(cat edits 2> /dev/null)" != "$edits" ]; then
    driver_as_it_came
    python3 "$here/edit_driver.py" "$source"
    build changed
    echo "$edits" > edits
fi
python3 "$here/edit_driver.py" "$source"     # the guest needs its header; a changed driver stays as it is

tests=$source/tools/testing/selftests
gcc -O2 -static -Wall -pthread -I"$source/lib" -o runner "$here/guest.c"
gcc -O2 -static -pthread -w -I"$tests" -I"$source" -o hmm-tests "$tests/vm/hmm-tests.c"
gcc -O1 -o gen_init_cpio "$source/usr/gen_init_cpio.c"
cat > cpio.list <<LIST
dir /dev 755 0 0
nod /dev/console 600 0 0 c 5 1
dir /proc 755 0 0
dir /sys 755 0 0
dir /tmp 755 0 0
file /runner $work/runner 755 0 0
file /hmm-tests $work/hmm-tests 755 0 0
LIST
./gen_init_cpio cpio.list > base.cpio
sed -n 's/^# Linux.*\(6\.1\.[0-9]*\).*/built: Linux \1/p' build/.config
