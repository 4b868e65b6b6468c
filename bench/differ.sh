#!/bin/sh
# The differential test of the proved library against this crate: differ.sh [SEED [FACTOR]], both 1 if not given.
# Builds the archive first if it is missing or older than crates/. src/bin/differ/main.rs says what is compared. Ends with 0 if there was
# no difference, 1 if there was one, 2 if something could not be built.
set -u
cd "$(dirname "$0")" || exit 2
../link/archive.sh || exit 2
cargo build --release --offline --quiet --features linked || exit 2
exec "${CARGO_TARGET_DIR:-target}/release/differ" "$@"
