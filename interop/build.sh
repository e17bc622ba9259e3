#!/bin/sh
# build.sh FOLDER: makes in FOLDER the guest that play.py boots: Debian's kernel, its net/x25, lapb and lapbether as modules, and an
# initramfs with guest.c as its only program. It installs nothing, and fetches one package, the kernel's image, which it unpacks in
# FOLDER; where others are missing it says which, with status 2. What stands there of the same kernel is taken as it is.
set -eu
here=$(cd "$(dirname "$0")" && pwd)
version=$(apt-cache depends linux-image-amd64 2>/dev/null | sed -n 's/.*Depends: linux-image-//p' | head -1)
[ "$version" ] || { echo "the kernel's package isn't known yet: apt-get update (Debian 12 on x86-64)" >&2; exit 2; }
name=linux-source-$(echo "$version" | cut -d. -f1-2)
headers=/usr/src/linux-headers-$version

# What is needed, each by a file of it, and the package that has it.
missing=
while read -r file package; do
    [ -e "$file" ] || missing="$missing $package"
done <<END
/usr/src/$name.tar.xz $name
$headers/Makefile linux-headers-$version
/usr/bin/qemu-system-x86_64 qemu-system-x86
/sbin/modinfo kmod
/usr/bin/cpio cpio
/usr/bin/xz xz-utils
/usr/bin/make make
/usr/bin/gcc gcc
/usr/bin/bc bc
/usr/include/libelf.h libelf-dev
/usr/include/stdio.h libc6-dev
END
if [ "$missing" ]; then
    echo "packages are missing: apt-get update && apt-get install --no-install-recommends$missing" >&2
    exit 2
fi
mkdir -p "$1"
cd "$1"
dir=$(pwd)

# The kernel and its modules, left in modules/ and vmlinuz.
if [ ! -e modules/tun.ko ] || [ ! -e version ] || [ "$(cat version)" != "$version" ]; then
    rm -rf version image source modules
    mkdir -p source modules build/x25 build/lapbether
    apt-get download -q "linux-image-$version"
    dpkg-deb -x linux-image-"$version"*.deb image
    tar xf "/usr/src/$name.tar.xz" -C source "$name/net/x25" "$name/drivers/net/wan/lapbether.c"
    cp source/"$name"/net/x25/*.[ch] build/x25/
    cp "source/$name/drivers/net/wan/lapbether.c" build/lapbether/
    echo 'obj-m := x25.o' >build/x25/Kbuild
    echo "x25-y := $(cd build/x25 && ls ./*.c | sed 's#^\./##; s#c$#o#' | tr '\n' ' ')" >>build/x25/Kbuild
    echo 'obj-m := lapbether.o' >build/lapbether/Kbuild
    make -s -C "$headers" M="$dir/build/x25" modules
    make -s -C "$headers" M="$dir/build/lapbether" KBUILD_EXTRA_SYMBOLS="$dir/build/x25/Module.symvers" modules
    kernel=image/lib/modules/$version/kernel
    cp $kernel/drivers/net/ethernet/intel/e1000/e1000.ko $kernel/drivers/net/tun.ko $kernel/net/lapb/lapb.ko build/x25/x25.ko build/lapbether/lapbether.ko modules/
    strip -g modules/*.ko
    cp "image/boot/vmlinuz-$version" vmlinuz
    rm -rf image source build linux-image-*.deb
    echo "$version" >version
fi

# The guest's files. Modules are loaded in this order.
rm -rf root
mkdir -p root/m
for it in e1000 tun lapb x25 lapbether; do
    cp "modules/$it.ko" root/m/
    echo "/m/$it.ko" >>root/modules
done
gcc -O1 -Wall -static -pthread -o root/init "$here/guest.c"
(cd root && find . | cpio -o -H newc --quiet | gzip) >initrd.gz
