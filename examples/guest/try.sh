#!/bin/sh
# Boots a stock Linux on the board isa-3, once plain and once with 1,700 migrations, and compares what it did:
#
#     sh examples/guest/try.sh [LIBRARY]
#
# LIBRARY is a folder with libvmstate_board_c.a. Without it the library is proved and built first, which takes about an hour of
# processor time from nothing. Nothing is installed: Debian's packages are fetched to examples/guest/out (or the folder WORK),
# 60 MB with their lists, and built there. They come from the first mirror of Debian that apt-get knows, or from DEBIAN_MIRROR. A
# second run fetches and builds only what isn't there.
set -eu
here=$(cd "$(dirname "$0")" && pwd)
top=$(cd "$here/../.." && pwd)
work=${WORK:-$here/out}
mirror=${DEBIAN_MIRROR:-$(apt-get indextargets --format '$(REPO_URI)' 'Origin: Debian' 2>/dev/null | head -n 1)}
jobs=${JOBS:-$(nproc)}
keys=/usr/share/keyrings/debian-archive-keyring.gpg
began=$(date +%s)

say() {
    echo "-- $(($(date +%s) - began)) s: $*"
}

check_tools() {
    for program in gcc g++ make as objcopy python3 xz apt-get dpkg-deb; do
        command -v "$program" >/dev/null && continue
        echo "there is no $program; on Debian: apt-get install gcc g++ make binutils python3 xz-utils" >&2
        exit 1
    done
    if ! [ -r "$keys" ]; then
        echo "there is no $keys; on Debian and Ubuntu: apt-get install debian-archive-keyring" >&2
        exit 1
    fi
    [ -n "$mirror" ] && return
    echo "apt-get has no mirror of Debian here: set DEBIAN_MIRROR to the address of one" >&2
    exit 1
}

# The static library, the programs over it, and the traces of other guests.
build_programs() {
    object=$library/liblibc_c.a
    [ -f "$object" ] || object=$(dirname "$(rt doc)")/c/liblibc_c.a
    cp "$library/libvmstate_board_c.a" "$object" "$work"
    for name in request trace place machine play keeper; do
        gcc -std=c11 -Wall -Wextra -O2 -I"$top/examples/embed" -c -o "$work/$name.o" "$here/$name.c"
    done
    (cd "$work" && rm -f libguest.a && ar rc libguest.a request.o trace.o place.o machine.o)
    for name in play keeper; do
        gcc -o "$work/$name" "$work/$name.o" "$work/libguest.a" "$work/libvmstate_board_c.a" "$work/liblibc_c.a"
    done
}

play_traces() {
    clean=
    if command -v valgrind >/dev/null; then clean="valgrind -q --leak-check=full --error-exitcode=9"; fi
    for name in grub:isa-2 linux-isa2-short:isa-2 linux-isa2-stuck:isa-2 linux-clk2:clk-2; do
        for kind in script trace; do
            xz -dc "$here/traces/${name%:*}.$kind.xz" >"$work/$kind"
        done
        $clean "$work/play" "${name#*:}" 100 "$work/script" "$work/trace"
        clean=
    done
}

# Debian's packages, by apt-get with lists of its own: nothing of the system is changed.
fetch() {
    mkdir -p "$work/apt/lists/partial" "$work/apt/cache/archives/partial" "$work/packages"
    cat >"$work/apt/sources" <<END
deb [arch=amd64 signed-by=$keys] $mirror trixie main
deb-src [signed-by=$keys] $mirror trixie main
END
    cat >"$work/apt/conf" <<END
Dir::Etc::SourceList "$work/apt/sources";
Dir::Etc::SourceParts "/dev/null";
Dir::State::Lists "$work/apt/lists";
Dir::Cache "$work/apt/cache";
Acquire::Languages "none";
APT::Sandbox::User "root";
APT::Architecture "amd64";
END
    (
        export APT_CONFIG="$work/apt/conf"
        cd "$work/packages"
        apt-get update
        kernel=$(apt-cache depends linux-image-cloud-amd64 | sed -n 's/.*Depends: //p')
        apt-get download busybox-static "$kernel"
        apt-get --tar-only source bochs
    )
}

# The kernel, an initramfs of busybox and a script, the command line, and the ROM.
make_guest() {
    rm -rf "$work/unpacked" "$work/root"
    mkdir -p "$work/unpacked" "$work/root/bin" "$work/root/dev"
    for package in "$work"/packages/*.deb; do
        dpkg-deb -x "$package" "$work/unpacked"
    done
    cp "$work"/unpacked/boot/vmlinuz-* "$work/kernel"
    cp "$work/unpacked/usr/bin/busybox" "$work/root/bin" 2>/dev/null || cp "$work/unpacked/bin/busybox" "$work/root/bin"
    cp "$here/init" "$work/root/init"
    chmod 755 "$work/root/init" "$work/root/bin/busybox"
    (cd "$work/root" && find . | sort | bin/busybox cpio -o -H newc 2>/dev/null) >"$work/initrd"
    printf %s "console=ttyS0,115200 acpi=off noapic nolapic nosmp pci=off nokaslr mitigations=off panic=-1 rdinit=/init" \
        >"$work/cmdline"
    as --32 -o "$work/rom.o" "$here/rom.S"
    objcopy -O binary -j .text "$work/rom.o" "$work/rom.bin"
    head -c 512 /dev/zero >"$work/vgarom.bin"
}

# Bochs from Debian's source package, changed; its log is shown as a count of the files that were compiled.
build_bochs() {
    if [ ! -d "$work/bochs" ]; then
        rm -rf "$work/bochs.new"
        mkdir "$work/bochs.new"
        tar xJf "$work"/packages/bochs_*.orig.tar.xz -C "$work/bochs.new" --strip-components=1
        python3 "$here/change.py" "$work/bochs.new"
        (cd "$work/bochs.new" && ./configure --with-nogui --without-x --enable-x86-64 --enable-cpu-level=6 --disable-pci \
            --enable-repeat-speedups --enable-fast-function-calls --enable-handlers-chaining --disable-plugins --disable-docbook \
            CFLAGS=-O1 CXXFLAGS=-O1 >"$work/configure.log" 2>&1)
        mv "$work/bochs.new" "$work/bochs"
    fi
    cp "$here/processor.cc" "$here/machine.h" "$work/bochs/iodev"
    (cd "$work/bochs" && rm -f bochs iodev/devices.o iodev/libiodev.a)
    make -C "$work/bochs" -j"$jobs" bochs EXTRA_LINK_OPTS="$work/libguest.a $work/libvmstate_board_c.a $work/liblibc_c.a" \
        >"$work/make.log" 2>&1 &
    make=$!
    while kill -0 "$make" 2>/dev/null; do
        sleep 5
        say "Bochs: $(grep -c ' -o ' "$work/make.log") files compiled"
    done
    wait "$make" || { tail -20 "$work/make.log" >&2 && exit 1; }
}

# run NAME: boots the guest; what it does is left in the folder NAME.
run() {
    rm -rf "${work:?}/$1"
    mkdir "$work/$1"
    for name in kernel initrd cmdline; do
        ln "$work/$name" "$work/$1/$name"
    done
    cat >"$work/$1/rc" <<END
config_interface: textconfig
display_library: nogui
romimage: file=$work/rom.bin
vgaromimage: file=$work/vgarom.bin
memory: guest=256, host=256
cpu: model=core2_penryn_t9600, count=1, ips=100000000, reset_on_triple_fault=0, ignore_bad_msrs=1
clock: sync=none, time0=1000000000
log: $work/$1/log
panic: action=fatal
error: action=ignore
info: action=ignore
debug: action=ignore
END
    GUEST="$work/$1" timeout 3600 "$work/bochs/bochs" -q -f "$work/$1/rc" </dev/null || {
        echo "the boot ended with status $?: $work/$1/log, $work/$1/console" >&2
        exit 1
    }
}

check_tools
mkdir -p "$work"
if [ $# -gt 0 ]; then
    library=$(cd "$1" && pwd)
else
    say "vmstate_board_c: proved and built, where it isn't there yet"
    (cd "$top/crates/vmstate_board_c" && rt lib)
    library=$top/crates/vmstate_board_c/out
fi
build_programs
say "traces of other guests, saved and restored every 100 events"
play_traces
[ -f "$work/packages/fetched" ] || { say "Debian's packages" && fetch && touch "$work/packages/fetched"; }
say "the guest and its processor"
make_guest
build_bochs
say "a boot without a migration"
SHOW=1 run plain
say "the same boot, with migrations"
KEEPER="$work/keeper" run migrated >"$work/bochs.out"
for name in script trace console; do
    cmp "$work/plain/$name" "$work/migrated/$name"
    say "$name: $(wc -c <"$work/plain/$name") bytes, the same in both runs"
done
grep -q '^second 3' "$work/plain/console" || { echo "the guest didn't do what was typed" >&2 && exit 1; }
say "the recorded boot again, without a processor, saved and restored every 100 events"
"$work/play" isa-3 100 "$work/plain/script" "$work/plain/trace"
say "done"
