#!/bin/sh
# Builds the VMM and two small guests, and runs them: sh examples/vmm/try.sh [FOLDER]
#
# Needs gcc, binutils and /dev/kvm. FOLDER has libvmstate_board_c.a already. Without FOLDER the library is proved and built first by rt,
# where it isn't there yet, as examples/embed/try.sh does.
set -eu
here=$(cd "$(dirname "$0")" && pwd)
top=$(cd "$here/../.." && pwd)
kit=$(dirname "$(rt doc)")
if [ $# -gt 0 ]; then
    library=$(cd "$1" && pwd)
else
    (cd "$top/crates/vmstate_board_c" && rt lib)
    library=$top/crates/vmstate_board_c/out
fi
if ! [ -w /dev/kvm ]; then
    echo "/dev/kvm isn't there, or may not be written"
    exit 1
fi
work=$(mktemp -d)
trap 'rm -rf "$work"' EXIT
cd "$work"

build() {
    gcc -std=gnu17 -Wall -Wextra -I "$here/../embed" "$@" "$here"/*.c "$library/libvmstate_board_c.a" "$kit/c/liblibc_c.a"
}
guest() {
    as --32 -o "$1.o" "$here/$1.S"
    ld -m elf_i386 -Ttext "$2" --oformat binary -o "$1.bin" "$1.o"
}
build -O2 -o vmm
build -O0 -o newer
guest guest 0x7c00
guest kernel 0
VMM=$work/vmm
export VMM

# What is typed: 40 lines, and the byte that ends the guest. With the clock of steps the first byte comes before the guest listens.
lines() {
    for line in $(seq 40); do
        echo "line $line: the quick brown fox jumps over the lazy dog"
    done
}
(lines; printf '\004') >typed
(echo; cat typed) >early

# What the guest then sends, but for the ticks.
(
    echo "guest: type lines, and Ctrl-D at the end"
    lines | awk '{ print; print "guest: " length($0) " bytes" }'
    printf 'guest: the end\nguest: OUT of counter 2 rose\nguest: ten ticks, halting\n'
) >wanted
is_wanted() {
    tr -d '\r' <"$1" | sed 's/ by tick [0-9]*$//' | cmp - wanted
}

echo "-- the guest, with the clock of steps"
./vmm --clock steps guest.bin <early >plain.out 2>plain.notes
is_wanted plain.out
sed -n '1,5p' plain.out
echo ..
tail -n 4 plain.out
cat plain.notes

echo "-- the same, passed on to a fresh process 1,000 times"
exits=$(sed 's/.* after \([0-9]*\) exits.*/\1/' plain.notes)
./vmm --clock steps --upgrade $((exits / 1000)) guest.bin <early >passed.out 2>passed.notes
cat passed.notes
cmp plain.out passed.out
echo "the same output"

echo "-- passed on to another build, under each set that takes the board"
for set in 3 4; do
    ./vmm --clock steps --upgrade $((exits / 50)) --program ./newer --set $set guest.bin <early >newer.out
    cmp plain.out newer.out
done

echo "-- refused by the other program"
for program in "$here/damaged.sh" /bin/false ./none; do
    ./vmm --clock steps --upgrade $((exits / 3)) --program "$program" guest.bin <early >refused.out
    cmp plain.out refused.out
done

echo "-- each board, with the host's clock, passed on"
for board in isa-1 isa-2 isa-3 isa-4 clk-1 clk-2; do
    (sleep 0.3; cat typed) | ./vmm --board $board --upgrade $((exits / 20)) guest.bin >real.out
    is_wanted real.out
done

echo "-- a file of the form of a Linux kernel"
echo "some bytes" >initrd
./vmm --append "console=ttyS0 quiet" --initrd initrd kernel.bin
