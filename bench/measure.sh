#!/bin/sh
# The benchmark of the proved library beside this crate: measure.sh [ROUNDS [LINES]], 100 and 1000000 if not given. docs/BENCHMARKS.md
# says what is timed. Builds the archive and the rehearsal first if they are missing or older than crates/. Prints the tables with the machine and the date.
set -u
cd "$(dirname "$0")" || exit 2
../link/archive.sh || exit 2
../rehearse </dev/null >/dev/null || exit 2
cargo build --release --offline --quiet --features linked || exit 2
machine=$(sed -n 's/^model name[^:]*: //p' /proc/cpuinfo 2>/dev/null | head -n 1)
echo "${machine:-unknown machine}, $(getconf _NPROCESSORS_ONLN 2>/dev/null || echo '?') processors, $(date -u +%Y-%m-%d), load $(cut -d' ' -f1 /proc/loadavg 2>/dev/null), $(rustc --version)"
exec "${CARGO_TARGET_DIR:-target}/release/measure" "$@"
