#!/bin/sh
# Installs the program and its man page: sh install.sh [PREFIX], where PREFIX is ~/.local if it isn't given.
#
# rt proves and builds the program first; from nothing that takes about an hour. The installed copy also carries a line of text with
# the version, the commit and the kit, in a section of its own that is never loaded: `strings` prints it. Needs rt, git and binutils.
set -eu
mkdir -p "${1:-$HOME/.local}"
prefix=$(cd "${1:-$HOME/.local}" && pwd)
cd "$(dirname "$0")"
(cd crates/vmstate && rt run -- show @0 <../../examples/smallest.stream)

work=$(mktemp -d)
trap 'rm -r "$work"' EXIT
version=$(sed -n 's/^## \[\([0-9][0-9.]*\)\].*/\1/p' CHANGELOG.md | head -n 1)
commit=$(git describe --always --dirty --abbrev=12)
printf '\nvmstate %s, commit %s, built with %s\n' "$version" "$commit" "$(rt version)" >"$work/version"
objcopy --add-section .vmstate="$work/version" --set-section-flags .vmstate=noload,readonly crates/vmstate/out/vmstate "$work/vmstate"

install -D -m 755 "$work/vmstate" "$prefix/bin/vmstate"
install -D -m 644 docs/vmstate.1 "$prefix/share/man/man1/vmstate.1"
echo "installed $prefix/bin/vmstate and its man page:"
sed 1d "$work/version"
