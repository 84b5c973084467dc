# shellcheck shell=bash disable=SC2034,SC2154
# Tells now and then how far a build is, from what lies in its folder: a library that is being proved has a folder out/rlib, and one
# that is proved has a stamp there.

# When each crate was first seen to be proved, and how long a library took; what is being proved now; how many are proved.
declare -A since=() took=()
now=()
ready=0

look_around() {
    local crate at
    now=()
    ready=0
    for crate in "${libraries[@]}"; do
        at=$(home_of "$crate")/out/rlib
        if [ -e "$at/stamp" ]; then
            ready=$((ready + 1))
            [ -z "${since[$crate]:-}" ] || took[$crate]=${took[$crate]:-$((SECONDS - since[$crate]))}
        elif [ -d "$at" ] && ! grep -qx "== $crate" "$log" 2> /dev/null; then
            since[$crate]=${since[$crate]:-$SECONDS}
            now+=("$crate")
        fi
    done
    [ ! -d "$(home_of pl_main)/src" ] || since[pl_main]=${since[pl_main]:-$SECONDS}
}

count_lines() {
    find "$top/crates/$1/src" -name '*.rt' -exec cat {} + | wc -l
}

# For each crate a line for minutes_left: its name, lines, state, seconds and what it uses.
list_states() {
    local crate state seconds
    for crate in "${libraries[@]}" pl_main; do
        state=left seconds=0
        if is_proved "$crate"; then
            state=ready seconds=${took[$crate]:-0}
        elif [ -n "${since[$crate]:-}" ]; then
            state=now seconds=$((SECONDS - since[$crate]))
        fi
        echo "$crate ${lines[$crate]} $state $seconds ${uses[$crate]}"
    done
}

# About how many minutes a build will still take. A crate costs by its lines and by a thirtieth of those below it. A line takes 0.07
# seconds until enough crates of this build say otherwise. What is left takes its share of the jobs, or the longest chain of crates
# that wait for each other; the program comes last, alone, and is compiled too.
minutes_left() {
    awk -v jobs="$1" '
        {
            own[$1] = weight = $2
            for (i = 5; i <= NF; i++) {
                under[$1, $i]
                for (k = 1; k < NR; k++) if (($i, crates[k]) in under) under[$1, crates[k]]
            }
            for (k = 1; k < NR; k++) if (($1, crates[k]) in under) weight += own[crates[k]] / 30
            crates[NR] = $1; cost[NR] = weight; state[NR] = $3; seconds[NR] = $4
            if ($3 == "ready" && $4 > 0) { taken += $4; done += weight }
        }
        function left(k) {
            if (state[k] == "ready") return 0
            spent = state[k] == "now" ? seconds[k] : 0
            return cost[k] * unit > spent + 5 ? cost[k] * unit - spent : 5
        }
        END {
            unit = (5000 * 0.07 + taken) / (5000 + done)
            cost[NR] *= 3
            for (k = 1; k < NR; k++) {
                before = 0
                for (i = 1; i < k; i++) if ((crates[k], crates[i]) in under && chain[i] > before) before = chain[i]
                chain[k] = before + left(k)
                if (chain[k] > longest) longest = chain[k]
                sum += left(k)
            }
            print int(((sum / jobs > longest ? sum / jobs : longest) + left(NR)) / 60 + 1)
        }'
}

tell() {
    local all=$((${#libraries[@]} + 1)) doing="" jobs minutes
    jobs=$(cat "$room/jobs" 2> /dev/null || echo 1)
    if [ -d "$(home_of pl_main)/src" ]; then
        doing=", now pl_main, the program itself"
    elif [ ${#now[@]} != 0 ]; then
        doing=", now ${now[*]}"
    fi
    minutes=$(list_states | minutes_left "$jobs")
    say "$ready of $all crates proved$doing; so far $((SECONDS / 60)) minutes, and about $minutes more"
}

tell_progress() {
    local crate last=$SECONDS
    local -A lines=()
    # Ends with the shell that it tells of, and not before it.
    trap - EXIT HUP INT TERM
    for crate in "${libraries[@]}" pl_main; do
        lines[$crate]=$(count_lines "$crate")
    done
    while sleep 2 > /dev/null 2>&1 && kill -0 $$ 2> /dev/null; do
        look_around
        if [ $((SECONDS - last)) -ge 20 ]; then
            last=$SECONDS
            tell
        fi
    done
}
