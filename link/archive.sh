#!/bin/sh
# Builds target/staticlib/libskelmarith.a, with 'rt lib' in crates/skelmarith, if it is missing or older than crates.txt or crates/.
# All crates that it uses are proved first, which takes some minutes. Prints nothing if there was nothing to do. Ends with 2 if it fails.
set -u
me=archive.sh
root=$(CDPATH='' cd -- "$(dirname -- "$0")/.." && pwd -P) || exit 2
archive=$root/target/staticlib/libskelmarith.a
. "$root/tools/building.sh" || exit 2
up_to_date "$archive" || build skelmarith lib libskelmarith.a "$archive" || exit 2
