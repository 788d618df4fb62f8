#!/bin/sh
# A running QEMU is stopped, the state of its devices is edited as text, and another QEMU resumes from it.
#
#     sh commands.sh [FOLDER]
#
# Needs sh, qemu-system-x86_64 and vmstate on the path, and takes a second or two. The files that it makes are left in
# FOLDER, where they replace files of the same names; without FOLDER they are in a temporary folder, which is removed.
# It prints what the guest sent before and after, AAAA and BBBB. The status is 0 if that is so, and if a third QEMU
# saves the state as the text that was packed.
set -e
here=$(cd "$(dirname "$0")" && pwd)
folder=$1
[ "$folder" ] || { folder=$(mktemp -d); trap 'rm -r "$folder"' EXIT; }
cd "$folder"
cp "$here/microvm.json" .
sh "$here/guest.sh" > guest.rom
rm -f ram.img before.txt after.txt again.log

# The VM, with its RAM in a file that outlives it.
vm() {
    qemu-system-x86_64 -accel tcg -M microvm,pic=on,pit=on,rtc=on,isa-serial=on,memory-backend=ram -m 16M \
        -object memory-backend-file,id=ram,mem-path=ram.img,size=16M,share=on \
        -bios guest.rom -rtc base=2001-02-03T04:05:06,clock=vm -nodefaults -display none "$@"
}

# The commands of a QMP session: qmp FILE TEXT COMMAND... It waits until FILE contains TEXT, asking QEMU for its status
# meanwhile, and then sends the commands.
qmp() {
    echo '{"execute": "qmp_capabilities"}'
    until grep -aq "$2" "$1" 2> /dev/null; do
        echo '{"execute": "query-status"}'
        sleep 0.1
    done
    shift 2
    printf '%s\n' "$@" '{"execute": "quit"}'
}

# The VM runs until the guest has sent something, is stopped, and saves its devices without its RAM.
qmp before.txt AAAA '{"execute": "stop"}' \
    '{"execute": "xen-save-devices-state", "arguments": {"filename": "before.stream", "live": false}}' |
    vm -qmp stdio -serial file:before.txt > before.log

# Shown, edited, packed. The saved stream names no machine, but an incoming one must.
vmstate show microvm.json < before.stream > before.values
sed '1i\
machine microvm
s/^state.scr = 65$/state.scr = 66/' before.values > after.values
vmstate pack microvm.json after.values > after.stream

# Another QEMU with the same RAM takes it and resumes, until the guest has sent something.
qmp after.txt .... | vm -qmp stdio -serial file:after.txt -incoming 'exec:cat after.stream' > after.log

# A third takes it, stays stopped, and saves what it took.
qmp again.log '"paused"' '{"execute": "xen-save-devices-state", "arguments": {"filename": "again.stream", "live": false}}' |
    vm -qmp stdio -serial null -S -incoming 'exec:cat after.stream' > again.log
vmstate show microvm.json < again.stream > again.values

# What the guest sent; and the state that the third QEMU saved, which is the text without the line of the machine.
sent="$(head -c 4 before.txt) $(head -c 4 after.txt)"
echo "$sent"
[ "$sent" = 'AAAA BBBB' ]
tail -n +2 after.values | cmp - again.values
