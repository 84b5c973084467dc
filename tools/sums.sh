# shellcheck shell=bash disable=SC2034,SC2154
# The crates of the program, and checksums of their sources. The variable top is the checkout, and program the program's file.

# A crate, pl_main if none is named, and those that it is made of, each after those that it stands on, and what each uses: a line
# a crate, of a folder with a crates.txt.
crates_below() {
    awk -F: -v top="${2:-pl_main}" '
        function visit(crate, list, count, i) {
            if (!(crate in uses) || crate in seen) return
            seen[crate]
            count = split(uses[crate], list, " ")
            for (i = 1; i <= count; i++) visit(list[i])
            print crate, uses[crate]
        }
        { sub(/#.*/, "") }
        split($1, name, " ") { uses[name[1]] = $2 }
        END { visit(top) }' "$1/crates.txt"
}

# The folders that hold the sources of these crates, with a crates.txt, as paths below the folder that is given.
sources_below() {
    local crate uses part
    echo crates.txt
    while read -r crate uses; do
        for part in src specs proofs; do
            [ ! -d "$1/crates/$crate/$part" ] || echo "crates/$crate/$part"
        done
    done < <(crates_below "$1")
}

# A checksum of these crates: of what each uses, and of the files in their folders of the given names.
sum_of() {
    local paths
    mapfile -t paths < <(sources_below "$1" | grep -E "/($2)\$")
    {
        crates_below "$1" | sed 's/  */ /g'
        (cd "$1" && find "${paths[@]}" -type f -print0 | LC_ALL=C sort -z | xargs -0 sha256sum)
    } | sha256sum | cut -d ' ' -f 1
}

# What a build leaves beside the program: checksums of its sources and of the program itself.
sums_of() {
    echo "$(sum_of "$1" 'src|specs|proofs') $(sha256sum < "$program" | cut -d ' ' -f 1)"
}
