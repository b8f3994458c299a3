# shellcheck shell=bash
# What is built once is kept in the user's cache, named by the content that it was built from.
# The scripts at the top source this file, with the top of the repository in `top`.

# What is kept of one kind, and no more: each folder is named KIND-SUM.
newest=3
kept=${XDG_CACHE_HOME:-${HOME:-$top/out}/.cache}/bizhgora/kept

# What the library for C is made from, beside the sources of its crates.
library_files=(
    tools/build-proved tools/link-library tools/rust-declarations tools/version
    c/libdsa_model.map c/library.c
)

# The toolchain's folder, found without starting the toolchain, which takes half a second.
toolchain_folder() {
    local folder
    folder=$(command -v rt) && folder=$(readlink -f "$folder") || return 1
    folder=${folder%/*/*}
    [ -f "$folder/KIT-ID" ] || { folder=$(rt doc) && folder=${folder%/*}; } || return 1
    echo "$folder"
}

# The toolchain's identity, or nothing where there is none.
toolchain_identity() {
    local folder
    folder=$(toolchain_folder) || return 0
    cat "$folder/KIT-ID" 2>/dev/null || rt version
}

# The crates that a crate is built from, lowest first and itself last, by crates.txt in FOLDER.
crates_of() { # FOLDER CRATE
    awk -F: -v crate="$2" '
        /^[^#]/ { split($1, name, " "); uses[name[1]] = $2 }
        function visit(crate, parts, n, i) {
            if (!(crate in uses) || crate in seen) return
            seen[crate] = 1
            n = split(uses[crate], parts, " ")
            for (i = 1; i <= n; i++) visit(parts[i])
            print crate
        }
        END { visit(crate) }' "$1/crates.txt"
}

# Copies these parts of a crate and of all that it is built from, with their lines in crates.txt.
copy_sources() { # FOLDER CRATE TO PART...
    local from=$1 crate=$2 to=$3 name part
    shift 3
    mkdir -p "$to/crates"
    cp "$from/HANDLES" "$to/"
    for name in $(crates_of "$from" "$crate"); do
        grep -E "^$name( |:)" "$from/crates.txt" >>"$to/crates.txt"
        mkdir "$to/crates/$name"
        for part; do
            [ ! -e "$from/crates/$name/$part" ] ||
                cp -R "$from/crates/$name/$part" "$to/crates/$name/"
        done
    done
}

# The sum of what a crate is built from: the names and contents of the files in these parts of its
# crates, and their lines in crates.txt.
sum_of_sources() { # FOLDER CRATE PART...
    (
        set -o pipefail
        cd "$1" || exit
        crate=$2
        shift 2
        parts=() names=()
        for name in $(crates_of . "$crate"); do
            names+=("$name")
            for part; do
                [ ! -e "crates/$name/$part" ] || parts+=("crates/$name/$part")
            done
        done
        {
            printf '%s\n' "${names[@]}" |
                awk 'NR == FNR { wanted[$1]; next } { split($1, name, ":") } name[1] in wanted' - crates.txt |
                LC_ALL=C sort
            find "${parts[@]}" -type f -print0 | LC_ALL=C sort -z | xargs -0 sha256sum
        } | sum_of_input
    )
}

# The sum of what the library for C is made from.
sum_of_library() { # FOLDER
    local sources
    sources=$(sum_of_sources "$1" dsa_c src specs proofs dsa_model.h dsa_model.hpp) || return
    (
        set -o pipefail
        cd "$1" || exit
        { echo "$sources" && sha256sum "${library_files[@]}"; } | sum_of_input
    )
}

sum_of_input() {
    sha256sum | cut -c1-40
}

# The stamp of what a toolchain of this identity makes of these sources.
stamp_of() { # SOURCES-SUM IDENTITY
    printf '%s\n' "$1" "$2" | sum_of_input
}

# Prints the folder that is kept under this name, where all its files are as they were kept.
find_kept() { # KIND STAMP
    local folder=$kept/$1-$2
    (cd "$folder" 2>/dev/null && sha256sum --check --status SUMS 2>/dev/null) || return 1
    touch -c "$folder" 2>/dev/null || true
    echo "$folder"
}

# Moves a folder to where it is kept. What runs from an earlier one of this name goes on.
keep() { # KIND STAMP FOLDER
    local target=$kept/$1-$2 part=$kept/.new.$$ old=$kept/.old.$$ folder
    mkdir -p "$kept"
    rm -rf "$part" "$old"
    cp -R "$3" "$part"
    (cd "$part" && rm -f SUMS && find . -type f -exec sha256sum {} + >"../.sums.$$" && mv "../.sums.$$" SUMS)
    [ ! -e "$target" ] || mv -T "$target" "$old"
    mv -T "$part" "$target"
    rm -rf "$old"
    touch "$target"
    find "$kept" -maxdepth 1 -type d -name "$1-*" -printf '%T@ %p\n' | sort -rn | tail -n +$((newest + 1)) |
        while read -r _ folder; do
            rm -rf "$folder"
        done
    find "$kept" -maxdepth 1 -name '*.lock' -mtime +7 -delete
}

# Keeps the program that was proved in a copy whose sources had this sum when its proof began. A
# toolchain that kept the proof does not write the object again, which ./release asks for, so the
# object that is kept already stays.
keep_proved() { # COPY SOURCES-SUM IDENTITY
    local folder stamp earlier
    folder=$(mktemp -d)
    stamp=$(stamp_of "$2" "$3")
    cp "$1/crates/dsa_run/out/dsa_run" "$folder/"
    if [ -f "$1/crates/dsa_run/out/dsa_run.o" ]; then
        cp "$1/crates/dsa_run/out/dsa_run.o" "$folder/"
    elif earlier=$(find_kept proved "$stamp") && [ -f "$earlier/dsa_run.o" ]; then
        cp "$earlier/dsa_run.o" "$folder/"
    fi
    echo "$2" >"$folder/sources"
    echo "$3" >"$folder/toolchain"
    keep proved "$stamp" "$folder"
    rm -rf "$folder"
}

# Takes the lock of this name, on descriptor 9, and says what it waits for. A program that is started
# while it is held has to be started with 9>&-.
take_lock() { # NAME WHAT
    mkdir -p "$kept"
    exec 9>"$kept/$1.lock"
    if ! flock -n 9; then
        echo "${0##*/}: another run is $2 from the same sources; this one waits for it" >&2
        flock 9
    fi
}

give_lock() {
    exec 9>&-
}
