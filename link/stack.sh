#!/bin/sh
# Prints how much stack the library's calls use, measured by link/stack.c. CC names another compiler than cc.
set -u
here=$(CDPATH='' cd -- "$(dirname -- "$0")" && pwd -P) || exit 2
target=$here/../target
"$here/archive.sh" || exit 2
mkdir -p -- "$target/link" || exit 2
"${CC:-cc}" -std=c11 -Wall -Wextra -Werror -O2 -I "$here" -o "$target/link/stack" "$here/stack.c" \
    "$target/staticlib/libskelmarith.a" -lpthread || exit 2
exec "$target/link/stack"
