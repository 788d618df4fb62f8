#!/bin/sh
# Builds both static libraries and the programs over them, and runs these under valgrind: sh examples/embed/try.sh [FOLDER]
#
# A library is built only once it and every crate below it are proved: from nothing that takes about an hour of processor time. The
# libraries are kept in crates/vmstate_c/out and crates/vmstate_board_c/out, and the next run takes seconds. If FOLDER is given, it has
# libvmstate_c.a and libvmstate_board_c.a already, and nothing is proved. Needs rt, gcc, cargo and valgrind. If `vmstate` is on the
# path, it is started for comparison.
set -eu
here=$(cd "$(dirname "$0")" && pwd)
top=$(cd "$here/../.." && pwd)
kit=$(dirname "$(rt doc)")
work=$(mktemp -d)
trap 'rm -rf "$work"' EXIT
if [ $# -gt 0 ]; then
    library=$(cd "$1" && pwd)
    board_library=$library
else
    for crate in vmstate_c vmstate_board_c; do
        echo "-- $crate: proved and built, unless it's there already"
        (cd "$top/crates/$crate" && rt lib)
    done
    library=$top/crates/vmstate_c/out
    board_library=$top/crates/vmstate_board_c/out
fi
set_file=$top/examples/box.json
stream=$top/examples/box.stream
saved=$top/examples/isa-2-line.stream

gcc -Wall -Wextra -O2 -o "$work/embed" "$here/embed.c" "$library/libvmstate_c.a" "$kit/c/liblibc_c.a"
gcc -Wall -Wextra -O2 -o "$work/border" "$here/border.c" "$library/libvmstate_c.a" "$kit/c/liblibc_c.a"
gcc -Wall -Wextra -O2 -o "$work/board" "$here/board.c" "$board_library/libvmstate_board_c.a" "$kit/c/liblibc_c.a"
(cd "$here/rust" && VMSTATE_LIBS="$library:$board_library:$kit/c" CARGO_TARGET_DIR="$work/target" cargo build -q --release --offline --locked)

clean() {
    valgrind -q --leak-check=full --error-exitcode=9 "$@"
}
echo "-- C"
clean "$work/embed" "$set_file" "$stream" "$saved" >"$work/c.out"
cat "$work/c.out"
echo "-- Rust"
clean "$work/target/release/embed" "$set_file" "$stream" "$saved" >"$work/rust.out"
grep -v 'too few' "$work/c.out" >"$work/wanted.out"
cmp "$work/wanted.out" "$work/rust.out"
echo "as C"
echo "-- at the border"
clean "$work/border"
echo "-- a board in C"
clean "$work/board"
echo "-- a board in Rust"
clean "$work/target/release/board"
echo "-- a call beside a start of the program"
clean "$work/embed" "$set_file" "$stream" "$saved" 1000 >"$work/loop.out"
"$work/embed" "$set_file" "$stream" "$saved" 100000
if command -v vmstate >/dev/null; then
    cd "$top/examples"
    begin=$(date +%s%N)
    for _ in $(seq 1000); do vmstate show box.json <box.stream >"$work/out"; done
    echo "1000 starts of vmstate, $((($(date +%s%N) - begin) / 1000000)) us each"
fi
