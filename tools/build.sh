# shellcheck shell=bash disable=SC2034,SC2154
# Builds the proved program. Each library is proved in a folder of its own that holds its sources and, as links, all that it stands
# on: the toolchain locks what lies in a folder, so that in one folder no two libraries could be proved at a time. A library whose
# own have all been proved starts as soon as a job is free, and first the one that most others wait for. Then the program is proved.
# A library that is done holds its statements and no proofs (tools/library); one that is interrupted is begun anew.

# shellcheck source=tools/room.sh
. "$top/tools/room.sh"
# shellcheck source=tools/progress.sh
. "$top/tools/progress.sh"
log=$room/build.log
libraries=()
declare -A uses=()

# Reads crates.txt into libraries and uses.
read_crates() {
    local crate rest
    libraries=()
    while read -r crate rest; do
        uses[$crate]=$rest
        [ "$crate" = pl_main ] || libraries+=("$crate")
    done < <(crates_below "$top")
}

# How many crates to prove at a time: one a core, and some 4 GB for each.
count_jobs() {
    local most
    most=$(cat /proc/meminfo /sys/fs/cgroup/memory.max 2> /dev/null | awk -v cores="$(nproc)" '
        /^MemAvailable:/ { most = int($2 / 4e6) }
        /^[0-9]+$/ && int($1 / 4e9) < most { most = int($1 / 4e9) }
        END { print most < 1 ? 1 : most < cores ? most : cores }')
    echo "${TOHMERIL_JOBS:-$most}"
}

# The folder of a crate that is built; what was proved lies in out/ there.
home_of() {
    echo "$room/$1/crates/$1"
}

is_proved() {
    [ -e "$room/$1/crates/$1/out/rlib/stamp" ]
}

# Whether the build has a crate as it stands now, over libraries that are proved.
is_copied() {
    local part use here=$top/crates/$1 there
    there=$(home_of "$1")
    grep -qFx "$1: ${uses[$1]}" "$room/$1/crates.txt" 2> /dev/null || return 1
    for part in src specs proofs; do
        [ -d "$here/$part" ] || [ -d "$there/$part" ] || continue
        diff -rq "$here/$part" "$there/$part" > /dev/null 2>&1 || return 1
    done
    for use in ${uses[$1]}; do
        [ -z "${uses[$use]+known}" ] || is_proved "$use" || return 1
    done
}

# Copies the sources of a crate; of the program, what its check left stays.
copy_crate() {
    local part to
    to=$(home_of "$1")
    mkdir -p "$to"
    for part in src specs proofs data; do
        rm -rf "${to:?}/$part"
        [ ! -d "$top/crates/$1/$part" ] || cp -Rp "$top/crates/$1/$part" "$to/$part"
    done
    echo "$1: ${uses[$1]}" > "$room/$1/crates.txt"
}

# Puts what a crate stands on beside it, as links to the files of those crates.
link_below() {
    local crate rest part from to
    for to in "$room/$1"/crates/*; do
        [ "$(basename "$to")" = "$1" ] || rm -rf "$to"
    done
    while read -r crate rest; do
        echo "$crate: $rest"
        [ "$crate" != "$1" ] || continue
        from=$(home_of "$crate") to=$room/$1/crates/$crate
        mkdir -p "$to/out"
        for part in src specs proofs out/rlib; do
            [ ! -d "$from/$part" ] || cp -Rl "$from/$part" "$to/$part"
        done
    done < <(crates_below "$top" "$1") > "$room/$1/crates.txt"
}

# Leaves no crate in the build but those of the program. Of the program its own work stays alone, as it is built last.
drop_others() {
    local path part
    for path in "$room"/*/; do
        case " ${libraries[*]} pl_main unproved " in
            *" $(basename "$path") "*) ;;
            *) rm -rf "$path" ;;
        esac
    done
    for part in src specs proofs data; do
        rm -rf "${room:?}/pl_main/crates/pl_main/$part"
    done
}

# Brings the copies of the libraries up to date. What changed, or stands on what did, is not counted as proved any more.
prepare() {
    local crate
    mkdir -p "$room"
    touch "$room/begun"
    drop_others
    for crate in "${libraries[@]}"; do
        if ! is_copied "$crate" || ! is_proved "$crate"; then
            rm -rf "${room:?}/$crate"
            copy_crate "$crate"
        fi
    done
}

# The libraries, those first that the longest chain of others, by their lines, waits for.
by_chain() {
    local crate
    for crate in "${libraries[@]}"; do
        echo "$crate $(count_lines "$crate") ${uses[$crate]}"
    done | tac | awk '
        {
            chain[$1] += $2 + 500
            for (i = 3; i <= NF; i++) if (chain[$1] > chain[$i]) chain[$i] = chain[$1]
            print chain[$1], $1
        }' | sort -rn | cut -d ' ' -f 2
}

# The proofs that run: the library of each process.
declare -A proving=()

can_start() {
    local use
    ! is_proved "$1" || return 1
    case " ${proving[*]} " in
        *" $1 "*) return 1 ;;
    esac
    for use in ${uses[$1]}; do
        [ -z "${uses[$use]+known}" ] || is_proved "$use" || return 1
    done
}

# Starts the proof of a library, with so many jobs of its own.
start_proof() {
    link_below "$1"
    (cd "$(home_of "$1")" && exec "$top/tools/library" --jobs "$2") > "$room/$1/log" 2>&1 < /dev/null &
    proving[$!]=$1
    children+=($!)
}

# Waits until one of the proofs has ended, and adds what it said to the log.
end_proof() {
    local ended=0 status=0 crate
    wait -n -p ended "${!proving[@]}" || status=$?
    forget "$ended"
    crate=${proving[$ended]}
    unset "proving[$ended]"
    { echo "== $crate" && cat "$room/$crate/log"; } >> "$log"
    is_proved "$crate" || fail "$crate" "$status"
}

# Where fewer libraries can start than there are places, each takes its share of them, as at the end of a build, where each crate
# stands on the one before it.
prove_libraries() {
    local crate jobs order free able
    jobs=$(cat "$room/jobs")
    mapfile -t order < <(by_chain)
    while :; do
        able=()
        for crate in "${order[@]}"; do
            ! can_start "$crate" || able+=("$crate")
        done
        free=$((jobs - ${#proving[@]}))
        [ "$free" -gt ${#able[@]} ] || able=("${able[@]:0:free}")
        for crate in "${able[@]}"; do
            start_proof "$crate" $((free / ${#able[@]}))
        done
        [ ${#proving[@]} != 0 ] || return 0
        end_proof
    done
}

prove_program() {
    local status=0 words=(run data/p.pl data/sessions.csv data/assets.csv data/bars.csv 2024-01-03 2024-01-09)
    copy_crate pl_main
    link_below pl_main
    run_in "$(home_of pl_main)" "$room/pl_main/log" rt run -- "${words[@]}" || status=$?
    { echo "== pl_main" && cat "$room/pl_main/log"; } >> "$log"
    [ "$status" = 0 ] || fail pl_main "$status"
}

# The program takes the time at which its sources were copied, so that a later edit is seen.
install_program() {
    mkdir -p "$folder/out"
    cp "$(home_of pl_main)/out/pl_main" "$program.new"
    touch -r "$room/begun" "$program.new"
    mv -f "$program.new" "$program"
    sums_of "$room/pl_main" > "$program.sums"
}

# Tells what a crate that could not be proved said last, and ends.
fail() {
    say "the build failed at $1, with status $2"
    grep -v ': proved$\|: modules loaded=' "$room/$1/log" | tail -n 15 >&2
    stop "$log has all that the build said, and $room/*/log what the crates say that are being proved"
}

start_telling() {
    tell_progress 9>&- &
    children+=($!)
}

build_in_turn() {
    read_crates
    prepare
    count_jobs > "$room/jobs"
    : > "$log"
    start_telling
    prove_libraries
    prove_program
    install_program
}

build() {
    ask_for_toolchain
    read_crates
    say "building the proved program; see $log"
    if ! take_lock "$room.lock"; then
        say "another build is under way: waiting for it"
        start_telling
        flock 9
        end_children
    fi
    is_current || build_in_turn
    end_children
    let_go
}

clear_builds() {
    take_lock "$room.unproved.lock" || stop "a build is under way"
    take_lock "$room.lock" || stop "a build is under way"
    if [ -d "$room" ]; then
        say "removing $room, $(du -sh "$room" | cut -f 1)"
        rm -rf "$room"
    fi
}
