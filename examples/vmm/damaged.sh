#!/bin/sh
# Takes the place of a program that is to take the guest: damages one byte of the board's stream, and has the rest done by the program
# VMM. So it shows what a refusal does. Its arguments are those of `vmm --resume`.
set -eu
state=${2%%,*}
others=${2#*,}
passed=$(mktemp)
cat "/dev/fd/$state" >"$passed"
facts=$(od -An -tu4 -N4 "$passed")
printf '\377' | dd of="$passed" bs=1 seek=$((4 + facts + 4 + 100)) conv=notrunc status=none
exec 3<"$passed"
rm "$passed"
exec "$VMM" --resume "3,$others"
