#!/bin/sh
# Tries ./rehearse and link/archive.sh on a small copy of the repository, with stand-ins for rt and for the program that it builds. Takes half a
# minute, needs no kit, and is no part of the gate. Its last line is 'N passed, M failed', and it ends with 1 if M is not 0.
set -u
here=$(CDPATH='' cd -- "$(dirname -- "$0")/.." && pwd -P) || exit 2
scratch=${TMPDIR:-/tmp}/rehearse.$$
mkdir -m 700 -- "$scratch" || exit 2
trap 'rm -rf -- "$scratch"' EXIT
trap 'exit 2' HUP INT TERM
root="$scratch/a copy"
program=$root/target/bin/rehearsal
passed=0
failed=0

# A repository of three crates beside the program's and the library's, one of which neither uses.
mkdir -p "$root/tools" "$root/link" "$root/examples" "$scratch/bin" "$scratch/elsewhere"
for crate in low middle beside rehearsal skelmarith; do
    mkdir -p "$root/crates/$crate/src"
    echo "// $crate" >"$root/crates/$crate/src/lib.rt"
done
cp -- "$here/rehearse" "$root/rehearse"
cp -- "$here/tools/building.sh" "$root/tools/building.sh"
cp -- "$here/link/archive.sh" "$root/link/archive.sh"
printf '# crates\nlow:\nmiddle: low std\nbeside: low\nrehearsal: middle low\nskelmarith staticlib: middle\n' >"$root/crates.txt"
echo one >"$root/examples/one.in"
echo two >"$scratch/elsewhere/with blanks.in"
echo three >"$scratch/elsewhere/-dash.in"
echo four >"$scratch/elsewhere/--help"

# The stand-in for rt does what $scratch/how says, and notes each call.
cat >"$scratch/bin/rt" <<'STAND_IN'
#!/bin/sh
scratch=${0%/bin/rt}
echo "$1" >>"$scratch/calls"
echo $$ >"$scratch/pid"
case $(cat "$scratch/how") in
refuses)
    echo "rt: chose --jobs 2 for low"
    echo "fn low::f: not proved"
    exit 1
    ;;
nothing) exit 0 ;;
slow)
    for crate in low middle; do
        echo "rt: chose --jobs 2 for $crate"
        sleep 2
    done
    ;;
hangs)
    echo "rt: chose --jobs 2 for low"
    exec sleep 60
    ;;
esac
mkdir -p out
[ "$1" = run ] || { echo archive >out/libskelmarith.a; exit 0; }
printf '#!/bin/sh\necho names || exit 1\nexec cat\n' >out/rehearsal
chmod +x out/rehearsal
STAND_IN
chmod +x "$scratch/bin/rt"
PATH=$scratch/bin:$PATH

# how WHAT: what the stand-in does from now on, with nothing built yet and no call noted.
how() {
    echo "$1" >"$scratch/how"
    rm -rf -- "$root/target" "$root"/crates/*/out "$scratch/calls"
}

# try NAME STATUS OUTPUT ERRORS COMMAND..: the command ends with STATUS, prints OUTPUT and no more, and on standard error what the pattern
# ERRORS fits.
try() {
    name=$1 status=$2 output=$3 errors=$4
    shift 4
    "$@" >"$scratch/out" 2>"$scratch/err"
    got=$?
    text=$(cat "$scratch/out")
    said=$(cat "$scratch/err")
    wrong=
    [ "$got" -eq "$status" ] || wrong="status $got"
    [ "$text" = "$output" ] || wrong="$wrong; printed: $text"
    # shellcheck disable=SC2254
    case $said in
    $errors) ;;
    *) wrong="$wrong; said: $said" ;;
    esac
    judge "$name" "$wrong"
}

judge() {
    if [ -z "$2" ]; then
        passed=$((passed + 1))
    else
        failed=$((failed + 1))
        echo "FAILED $1: $2"
    fi
}

# holds NAME CONDITION..: the condition is true.
holds() {
    name=$1
    shift
    if "$@"; then judge "$name" ''; else judge "$name" "not so: $*"; fi
}

calls() {
    if [ -f "$scratch/calls" ]; then grep -c . "$scratch/calls"; else echo 0; fi
}

# Only what belongs there is in target/.
tidy() {
    [ -z "$(find "$root/target" -mindepth 1 ! -name bin ! -name staticlib ! -name rehearsal ! -name libskelmarith.a 2>/dev/null)" ]
}

usage_of() {
    "$root/rehearse" --help
}

cd "$scratch/elsewhere" || exit 2
one="names
one"
usage=$(usage_of)

# Files are looked at before anything is built.
how builds
try "no such file" 1 '' '*none.in is not there' "$root/rehearse" none.in
try "a folder" 1 '' '*examples is a folder' "$root/rehearse" "$root/examples"
try "two that cannot be read" 1 '' '*none.in*nor.in*' "$root/rehearse" none.in nor.in
try "no name" 1 '' '*is not there' "$root/rehearse" ''
echo secret >"$scratch/secret"
chmod 000 "$scratch/secret"
[ -r "$scratch/secret" ] || try "may not be read" 1 '' '*cannot be read' "$root/rehearse" "$scratch/secret"
holds "nothing built for them" [ "$(calls)" -eq 0 ]

# Options, wherever they stand.
try "--help" 0 "$usage" '' "$root/rehearse" --help
try "-h" 0 "$usage" '' "$root/rehearse" -h
try "--help behind a file" 0 "$usage" '' "$root/rehearse" "$root/examples/one.in" --help
try "an unknown option" 2 '' '*no such option: --fast*usage: rehearse*' "$root/rehearse" --fast
try "an unknown option behind a file" 2 '' '*no such option: -x*' "$root/rehearse" "$root/examples/one.in" -x
holds "nothing built for options" [ "$(calls)" -eq 0 ]

# Building.
try "the first call builds" 0 "$one" '*building target/bin/rehearsal*built in*' "$root/rehearse" "$root/examples/one.in"
holds "by one call of rt" [ "$(calls)" -eq 1 ]
holds "and leaves nothing else" tidy
try "the second does not" 0 "$one" '' "$root/rehearse" "$root/examples/one.in"
holds "as rt was not called" [ "$(calls)" -eq 1 ]
sleep 1
echo "// changed" >>"$root/crates/low/src/lib.rt"
try "an edited source" 0 "$one" '*built in*' "$root/rehearse" "$root/examples/one.in"
sleep 1
rm "$root/crates/beside/src/lib.rt"
try "a source that is gone" 0 "$one" '*built in*' "$root/rehearse" "$root/examples/one.in"
how slow
try "progress" 0 "$one" '*0 of 3 crates proved, now low, * s*1 of 3 crates proved, now middle, * s*built in *' "$root/rehearse" "$root/examples/one.in"
how refuses
try "a refused build" 1 '' '*low::f: not proved*rt run*failed*' "$root/rehearse" "$root/examples/one.in"
holds "leaves no program" [ ! -e "$program" ]
holds "and nothing else" tidy
how nothing
try "a build without a program" 1 '' '*cannot bring out/rehearsal*' "$root/rehearse" "$root/examples/one.in"
holds "leaves no program either" [ ! -e "$program" ]
how builds
: >"$root/target"
try "no place for it" 1 '' '*cannot write to*' "$root/rehearse" "$root/examples/one.in"
how builds
mkdir "$scratch/few"
for tool in sh ls dirname cat find head; do ln -s "$(command -v "$tool")" "$scratch/few/$tool"; done
try "no rt" 1 '' '*the command rt of the Rattle kit is in no folder*' env PATH="$scratch/few" "$root/rehearse" "$root/examples/one.in"

# Ended from outside while it builds.
if command -v timeout >/dev/null 2>&1; then
    for signal in INT TERM HUP; do
        how hangs
        case $signal in INT) wanted=130 ;; TERM) wanted=143 ;; *) wanted=129 ;; esac
        try "ended by $signal" "$wanted" '' '*interrupted*' timeout --preserve-status -s "$signal" 2 "$root/rehearse" "$root/examples/one.in"
        holds "$signal leaves no program" [ ! -e "$program" ]
        holds "$signal leaves nothing else" tidy
        sleep 1
        holds "$signal ends rt too" [ -z "$(ps -o pid= -p "$(cat "$scratch/pid")" 2>/dev/null)" ]
    done
fi

# Files, standard input and places.
how builds
"$root/rehearse" "$root/examples/one.in" >/dev/null 2>&1
try "no file" 0 "$one" '' sh -c '"$1" <"$2"' - "$root/rehearse" "$root/examples/one.in"
try "-- alone" 0 "$one" '' sh -c '"$1" -- <"$2"' - "$root/rehearse" "$root/examples/one.in"
try "-" 0 "$one" '' sh -c '"$1" - <"$2"' - "$root/rehearse" "$root/examples/one.in"
try "- behind --" 0 "$one" '' sh -c '"$1" -- - <"$2"' - "$root/rehearse" "$root/examples/one.in"
try "a pipe" 0 "$one" '' sh -c 'echo one | "$1"' - "$root/rehearse"
try "standard input a folder" 1 '' '*is a folder' sh -c '"$1" <.' - "$root/rehearse"
try "standard input closed" 1 '' '*is closed' sh -c '"$1" <&-' - "$root/rehearse"
try "several" 0 "==> with blanks.in <==
names
two
==> - <==
names
one" '' sh -c '"$1" "with blanks.in" - <"$2"' - "$root/rehearse" "$root/examples/one.in"
try "several, one of them not there" 1 "==> with blanks.in <==
names
two" '*none.in is not there' "$root/rehearse" none.in "with blanks.in"
try "a leading dash" 0 "names
three" '' "$root/rehearse" -- -dash.in
try "a file called --help" 0 "names
four" '' "$root/rehearse" -- --help
try "two behind --" 0 "==> -dash.in <==
names
three
==> with blanks.in <==
names
two" '' "$root/rehearse" -- -dash.in "with blanks.in"
ln -s "$root/rehearse" "$scratch/elsewhere/absolute"
ln -s "../a copy/rehearse" "$scratch/elsewhere/relative link"
ln -s "elsewhere/relative link" "$scratch/twice"
try "by a symbolic link" 0 "$one" '' ./absolute "../a copy/examples/one.in"
try "by a relative one" 0 "$one" '' "./relative link" "../a copy/examples/one.in"
try "by a link to a link" 0 "$one" '' ../twice "../a copy/examples/one.in"
try "by its name in PATH" 0 "$one" '' env PATH="$root:$PATH" rehearse "$root/examples/one.in"
try "by sh" 0 "$one" '' sh "../a copy/rehearse" "$root/examples/one.in"

# Output that cannot be written.
if [ -c /dev/full ]; then
    try "a full disk" 1 '' '?*' sh -c '"$1" "$2" >/dev/full' - "$root/rehearse" "$root/examples/one.in"
    try "a full disk, several" 1 '' '*cannot write the output' sh -c '"$1" "$2" "$2" >/dev/full' - "$root/rehearse" "$root/examples/one.in"
fi

# The library's archive goes the same way.
how builds
try "the archive" 0 '' '*building target/staticlib/libskelmarith.a*built in*' "$root/link/archive.sh"
holds "is there" [ -f "$root/target/staticlib/libskelmarith.a" ]
try "the archive again" 0 '' '' "$root/link/archive.sh"
how refuses
try "a refused archive" 2 '' '*low::f: not proved*rt lib*failed*' "$root/link/archive.sh"
holds "leaves none" [ ! -e "$root/target/staticlib/libskelmarith.a" ]

# The program itself, where it has been built.
if [ -x "$here/target/bin/rehearsal" ]; then
    for script in "$here"/examples/*.in; do
        try "$script" 0 "$(cat "${script%.in}.out")" '' sh -c '"$1" <"$2"' - "$here/target/bin/rehearsal" "$script"
    done
    [ ! -c /dev/full ] ||
        try "a full disk, the program" 1 '' '?*' sh -c '"$1" <"$2" >/dev/full' - "$here/target/bin/rehearsal" "$here/examples/wrap.in"
fi

echo "$passed passed, $failed failed"
[ "$failed" -eq 0 ]
