# What ./rehearse and link/archive.sh share: building a file of target/ by rt, and saying meanwhile how far it is. Sourced, not run.
# The caller sets root, the folder of the repository, and me, the name before messages.

# Whether $1 is there and no source is newer. A folder is newer too once a file of it was removed. What rt keeps in out/ does not count.
up_to_date() {
    [ -f "$1" ] &&
        [ -z "$(find "$root/crates.txt" "$root"/crates/*/src "$root"/crates/*/specs "$root"/crates/*/proofs -newer "$1" -print 2>/dev/null | head -n 1)" ]
}

# The repository's crates below crate $1 and $1 itself, one a line, in the order in which rt proves them.
crates_of() {
    awk -v top="$1" '
        function visit(name, list, n, i) {
            if (!(name in uses) || (name in seen)) return
            seen[name] = 1
            n = split(uses[name], list, " ")
            for (i = 1; i <= n; i++) visit(list[i])
            print name
        }
        { sub(/#.*/, "") }
        index($0, ":") { split($0, head, /[ :]+/); uses[head[1]] = substr($0, index($0, ":") + 1) }
        END { visit(top) }' "$root/crates.txt"
}

# How long the build has taken so far.
elapsed() {
    seconds=$(($(date +%s) - start))
    if [ "$seconds" -lt 60 ]; then
        echo "$seconds s"
    else
        echo "$((seconds / 60)) min $((seconds % 60)) s"
    fi
}

# One line on standard error, which the next one replaces on a terminal.
progress() {
    if [ -t 2 ]; then
        printf '\r%-78s' "$me: $1" >&2
        open_line=y
    else
        printf '%s: %s\n' "$me" "$1" >&2
    fi
}

end_line() {
    [ -z "$open_line" ] || echo >&2
    open_line=
}

# Says where the build is: on a terminal at each call, else where another crate has begun, and once a minute.
tell() {
    now=$(sed -n 's/^rt: chose --jobs .* for \([a-z0-9_]*\)$/\1/p' "$work/log" | tail -n 1)
    [ -t 2 ] || [ "$now" != "$told" ] || [ "$(($(date +%s) - told_at))" -ge 60 ] || return 0
    told=$now
    told_at=$(date +%s)
    at=$(printf '%s\n' "$order" | grep -n -x -e "$now" | cut -d : -f 1)
    if [ -n "$now" ] && [ -n "$at" ]; then
        progress "$((at - 1)) of $total crates proved, now $now, $(elapsed)"
    else
        progress "proving, $(elapsed)"
    fi
}

# However this ends, rt ends with it, and nothing half made stays.
clean_up() {
    [ -z "$child" ] || kill "$child" 2>/dev/null
    rm -rf -- "$work"
}

interrupted() {
    end_line
    echo "$me: interrupted; the next call goes on from the crates that were proved" >&2
    exit "$1"
}

# build CRATE COMMAND PRODUCT FILE: makes FILE anew from what 'rt COMMAND' leaves as PRODUCT in out/ of the crate. Returns 1, having said why,
# where that fails; FILE is then as it was.
build() {
    command -v rt >/dev/null 2>&1 || {
        echo "$me: $4 has to be built, and the command rt of the Rattle kit is in no folder of PATH ($PATH)" >&2
        return 1
    }
    child=''
    told=''
    open_line=''
    work=$root/target/building.$$
    rm -rf -- "$work"
    mkdir -p -- "$root/target" "${4%/*}" && mkdir -- "$work" || {
        echo "$me: cannot write to $root/target" >&2
        return 1
    }
    trap clean_up EXIT
    trap 'interrupted 129' HUP
    trap 'interrupted 130' INT
    trap 'interrupted 143' TERM
    start=$(date +%s)
    told_at=$start
    order=$(crates_of "$1")
    total=$(($(printf '%s\n' "$order" | wc -l)))
    echo "$me: building ${4#"$root"/}; all crates that it uses are proved first, which takes some minutes" >&2
    make_file "$@"
    made=$?
    clean_up
    trap - EXIT HUP INT TERM
    return "$made"
}

# The work of build. FILE gets the time at which the build began, so that what is edited since is newer, and comes to its place whole.
make_file() {
    : >"$work/began" || return 1
    (cd -- "$root/crates/$1" && exec rt "$2") >"$work/log" 2>&1 </dev/null &
    child=$!
    while kill -0 "$child" 2>/dev/null; do
        sleep 1
        tell
    done
    wait "$child"
    ended=$?
    child=
    end_line
    if [ "$ended" -ne 0 ]; then
        cat -- "$work/log" >&2
        echo "$me: 'rt $2' failed in $root/crates/$1 after $(elapsed); $4 was not built" >&2
        return 1
    fi
    cp -- "$root/crates/$1/out/$3" "$work/made" && touch -r "$work/began" -- "$work/made" && mv -f -- "$work/made" "$4" || {
        echo "$me: cannot bring out/$3 of $root/crates/$1 to $4" >&2
        return 1
    }
    echo "$me: built in $(elapsed)" >&2
}
