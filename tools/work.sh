# shellcheck shell=bash
# Work that takes long. It has a folder of its own, `room`, and ends with the script that started
# it. ./run and ./lib source this file after kept.sh, which sets `kept`, and have their name in
# `script`.
# shellcheck disable=SC2154

refuse() { # WHY [STATUS]
    echo "$script: $1" >&2
    exit "${2-1}"
}

stop_without_toolchain() { # IDENTITY
    local where="README.md says what it is, under \"The toolchain\""
    [ -n "$1" ] || refuse "the toolchain's command rt is not on the path: $where"
}

make_room() {
    if ! mkdir -p "$kept" 2>/dev/null || [ ! -w "$kept" ]; then
        refuse "cannot write to $kept, where builds are kept: set XDG_CACHE_HOME to another folder"
    fi
    room=$(mktemp -d)
    trap 'clear_room' EXIT
    trap 'exit 129' HUP
    trap 'exit 130' INT
    trap 'exit 143' TERM
}

clear_room() {
    [ -z "${worker-}" ] || kill -- "-$worker" 2>/dev/null || true
    [ -z "${room-}" ] || rm -rf "$room"
    worker='' room=''
}

# Starts a command in a process group of its own, so that it ends when this script does. Its lines
# go to the log.
start_work() { # COMMAND...
    : >"$room/log"
    set -m
    TMPDIR=$room "$@" >"$room/log" 2>&1 </dev/null 9>&- &
    worker=$!
    set +m
}

in_folder() { # FOLDER COMMAND...
    cd "$1" || exit
    shift
    exec "$@"
}

end_work() {
    local status=0
    wait "$worker" || status=$?
    worker=
    return "$status"
}

# Prints the end of the log, and ends the script.
refuse_with_log() { # WHY
    grep -E '^rt: \w+ NOT PROVED' "$room/log" >&2 || true
    tail -n 20 "$room/log" >&2
    refuse "$1"
}

# Names each crate as it is proved.
report_crates() { # NUMBER
    local number=0 line
    while IFS= read -r line; do
        case "$line" in
        *': its tests are '*) ;;
        'rt: '*' proved' | 'rt: '*' is kept: '*)
            number=$((number + 1)) line=${line#rt: }
            echo "$script: ${line%% *}, $number of $1" >&2
            ;;
        esac
    done
}

# Proves the crates of a copy of the repository, as the gate does, and names each of NUMBER.
prove_crates() { # COPY NUMBER WHAT
    local status=0
    start_work in_folder "$1" "$top/tools/prove-crates"
    tail -f -s 0.5 --pid="$worker" -n +1 "$room/log" 2>/dev/null | report_crates "$2" &
    end_work || status=$?
    wait
    tail -n 1 "$room/log" | grep -qE '^[1-9][0-9]* passed, 0 failed$' || status=1
    [ "$status" -eq 0 ] || refuse_with_log "$3 was not built"
}
