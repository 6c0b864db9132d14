# Sourced by the scripts that build: each step is told on standard error, "lpmag: 3 of 12: record", and what the kit says goes into a
# log. Where a step fails, the log's name and its last lines are told.

# begin_steps TITLE: who speaks. The tree has to be writable, and nobody else may be building in it.
begin_steps() {
    title=$1 log=target/$1.log step=0 steps=0
    if ! { mkdir -p target/bin target/staticlib && : >>"$log" && exec 9>>target/building; } 2>/dev/null; then
        echo "$title: it has to be built, and $PWD can't be written" >&2
        exit 1
    fi
    if command -v flock >/dev/null && ! flock -n 9; then
        echo "$title: waiting for another build in $PWD" >&2
        flock 9
    fi
    : >"$log"
}

# rooms CRATE...: these crates and all that they stand on, a line each, and each after those that it stands on
rooms() {
    WANTED="$*" awk '
        function visit(n,    a, k, m) {
            if (n in seen || !(n in deps)) return
            seen[n]
            m = split(deps[n], a, " ")
            for (k = 1; k <= m; k++) visit(a[k])
            print n
        }
        { sub(/#.*/, ""); i = index($0, ":") }
        i { split(substr($0, 1, i - 1), head, " "); deps[head[1]] = substr($0, i + 1) }
        END { m = split(ENVIRON["WANTED"], want, " "); for (k = 1; k <= m; k++) visit(want[k]) }' crates.txt
}

fail_step() {
    echo "$title: $1; the last lines of $PWD/$log:" >&2
    tail -n 10 "$log" >&2
    exit 1
}

tell_step() {
    step=$((step + 1))
    echo "$title: $step of $steps: $1" >&2
}

end_guarded() {
    [ -z "$guarded" ] || kill -TERM -- "-$guarded" 2>/dev/null || true
}

# guarded COMMAND...: a signal that ends this script ends the command too, with all that it started
guarded() {
    local status=0
    guarded=
    trap 'end_guarded; exit 130' INT
    trap 'end_guarded; exit 143' TERM HUP
    set -m
    "$@" </dev/null 9>&- &
    guarded=$!
    set +m
    wait "$guarded" || status=$?
    trap - INT TERM HUP
    return $status
}

# in_room CRATE COMMAND...: the command, run in the crate's folder
in_room() {
    cd "crates/$1" && "${@:2}"
}

# prove CRATE...: these crates and all that they stand on, each a step; one that was proved before is passed over in silence
prove() {
    local room said
    for room in $(rooms "$@"); do
        said=$(wc -c <"$log")
        guarded in_room "$room" rt lib >>"$log" 2>&1 || fail_step "$room is not proved"
        if tail -c +$((said + 1)) "$log" | grep -q '^logic='; then
            tell_step "$room"
        else
            step=$((step + 1))
        fi
    done
}
