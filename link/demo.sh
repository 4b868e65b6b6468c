#!/bin/sh
# Builds link/demo.c with the system's compiler over the proved library, runs it and compares what it prints with link/demo.out.
# Ends with 0 if they are the same, else with 1 and the difference; with 2 if something could not be built. CC names
# another compiler than cc.
set -u
here=$(CDPATH='' cd -- "$(dirname -- "$0")" && pwd -P) || exit 2
target=$here/../target
"$here/archive.sh" || exit 2
mkdir -p -- "$target/link" || exit 2
"${CC:-cc}" -std=c11 -Wall -Wextra -Werror -O2 -I "$here" -o "$target/link/demo" "$here/demo.c" \
    "$target/staticlib/libskelmarith.a" || exit 2
"$target/link/demo" >"$target/link/demo.out" || {
    echo "demo.sh: the program ended with $?" >&2
    exit 1
}
if diff "$here/demo.out" "$target/link/demo.out"; then
    echo "demo: as stored in link/demo.out"
else
    echo "demo: DIFFERS from link/demo.out"
    exit 1
fi
