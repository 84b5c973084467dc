# shellcheck shell=bash disable=SC2034,SC2154
# The folder where builds of this checkout keep their work, who may work in it, and the commands that run for it. It lies outside the
# checkout, in which the gate allows no second crates.txt.

name_room() {
    local above=${XDG_CACHE_HOME:-}
    case $above in
        /*) ;;
        *) above=${HOME:-}/.cache ;;
    esac
    [ "$above" != /.cache ] || stop "HOME, where builds are kept, is not set"
    room=$above/tohmeril/$(basename "$top")-$(printf '%s' "$top" | sha256sum | cut -c 1-12)
}

name_room

# What runs beside this shell, to be ended when it ends.
children=()

end_children() {
    local child
    for child in "${children[@]}"; do
        kill "$child" 2> /dev/null || true
    done
    # So that nobody else finds them at work.
    for child in "${children[@]}"; do
        wait "$child" 2> /dev/null || true
    done
    children=()
}

# Strikes out a child that has ended: its number may soon be another's.
forget() {
    local child others=()
    for child in "${children[@]}"; do
        [ "$child" = "$1" ] || others+=("$child")
    done
    children=("${others[@]}")
}

trap end_children EXIT
trap 'exit 129' HUP
trap 'exit 130' INT
trap 'exit 143' TERM

# Runs a command of the toolchain in a folder, with what it says in a log, and returns its status. It is ended when this shell is.
run_in() {
    local where=$1 log=$2 child status=0
    shift 2
    (cd "$where" && exec "$@") > "$log" 2>&1 < /dev/null &
    child=$!
    children+=("$child")
    wait "$child" || status=$?
    forget "$child"
    return "$status"
}

ask_for_toolchain() {
    command -v rt > /dev/null || stop "the Rattle toolchain's command rt is not on the path"
}

# Takes the lock of a file until the shell lets go of it (let_go) or ends, all that it started too.
take_lock() {
    mkdir -p "$(dirname "$1")"
    exec 9> "$1"
    flock -n 9
}

let_go() {
    exec 9>&-
}
