#!/bin/sh
# Compares the rehearsal with this crate's: the examples, long generated scripts, and spoiled ones.
# compare.sh [PROGRAM]: PROGRAM is ../target/bin/rehearsal if none is given. Prints how to get each script on which two
# outputs differ, and ends with 1 if there is one. SEEDS and SPOILED say how many scripts are tried.
set -u
case ${1-} in
'') program= ;;
*/*) program=$(cd "$(dirname "$1")" && pwd)/$(basename "$1") || exit 2 ;;
*) program=$(pwd)/$1 ;;
esac
cd "$(dirname "$0")" || exit 2
program=${program:-$(cd .. && pwd)/target/bin/rehearsal}
[ -x "$program" ] || { echo "compare.sh: no program $program" >&2; exit 2; }
cargo build --release --offline --quiet || exit 2
built=${CARGO_TARGET_DIR:-target}/release
scratch=${TMPDIR:-/tmp}/compare.$$
mkdir -m 700 "$scratch" || exit 2
trap 'rm -rf "$scratch"' EXIT
trap 'exit 2' HUP INT TERM
tried=0
differing=0

# compare WORDS EXPECTED: the programs on $scratch/in; EXPECTED is the output wanted, or empty for that of this crate.
compare() {
    tried=$((tried + 1))
    "$built/rehearse" <"$scratch/in" >"$scratch/with" || echo "rehearse ended with $? on: $1"
    "$built/rehearse" --no-14 <"$scratch/in" >"$scratch/without" || echo "rehearse --no-14 ended with $? on: $1"
    "$program" <"$scratch/in" >"$scratch/program" || echo "$program ended with $? on: $1"
    if cmp "${2:-$scratch/with}" "$scratch/program" && cmp "$scratch/with" "$scratch/program" &&
        cmp "$scratch/with" "$scratch/without"; then
        return
    fi
    differing=$((differing + 1))
    echo "differs: $1"
}

for script in ../examples/*.in; do
    cp "$script" "$scratch/in"
    compare "$script" "${script%.in}.out"
done

seed=1
while [ "$seed" -le "${SEEDS:-5}" ]; do
    "$built/script" 200000 "$seed" >"$scratch/in"
    compare "script 200000 $seed" ''
    "$built/spoil" "$seed" <"$scratch/in" >"$scratch/spoiled"
    mv "$scratch/spoiled" "$scratch/in"
    compare "script 200000 $seed | spoil $seed" ''
    seed=$((seed + 1))
done

seed=1
while [ "$seed" -le "${SPOILED:-1000}" ]; do
    "$built/script" 200 "$seed" | "$built/spoil" "$seed" >"$scratch/in"
    compare "script 200 $seed | spoil $seed" ''
    seed=$((seed + 1))
done

echo "$tried scripts, $differing with a difference"
[ "$differing" -eq 0 ]
