# shellcheck shell=bash
# How tools/program.sh builds a program without proofs. 'rt try' links it, runs it in a folder below TMPDIR, and then removes it; a pipe for
# its first file holds the run there for as long as a copy takes.
#
# 'rt try' adds an address sanitizer and no optimization, by which the program takes some 25 microseconds for each byte of JSON that it reads.
# So it is run out of a kit of links, whose compiler leaves that out, unless the sanitizer is asked for.

# shellcheck disable=SC2154  # 'here', 'name', 'crate', 'waiting' and 'sanitize' are set by the script

# Prints the folder of the kit, if that is laid out as 'lay_kit' takes it to be.
find_kit() {
    local kit
    kit=$(realpath -- "$(type -P rt)") && kit=${kit%/bin/rt} && [[ -f $kit/bin/rtlib.py && -x $kit/toolchain/bin/clang ]] && echo "$kit"
} 2>/dev/null

# Writes a script in place of the compiler CLANG.
write_compiler() { # CLANG PLACE
    {
        printf '%s\n' '#!/bin/bash' "clang=${1@Q}"
        cat <<'END'
words=()
for word in "$@"; do
    if [[ $word == -fsanitize=address ]]; then plain=yes; else words+=("$word"); fi
done
[[ -z $plain ]] || words=("${words[@]/#-O0/-O1}")
exec "$clang" "${words[@]}"
END
    } >"$2" && chmod -- 755 "$2"
}

# Lays out PLACE as a kit that builds without the sanitizer.
lay_kit() { # KIT PLACE
    local file part
    mkdir -p -- "$2/bin" "$2/toolchain/bin" || return
    for file in "$1"/* "$1"/bin/* "$1"/toolchain/* "$1"/toolchain/bin/*; do
        part=${file#"$1"/}
        case $part in
            bin|toolchain|toolchain/bin) ;;
            # (they look for the kit where they lie themselves)
            bin/rt|bin/rtlib.py) cp -- "$file" "$2/$part" ;;
            toolchain/bin/clang) write_compiler "$file" "$2/$part" ;;
            *) ln -s -- "$file" "$2/$part" ;;
        esac || return
    done
}

# Copies the program that a build is running, in a folder below ROOM, to PLACE as soon as it reads ROOM/pipe, and lets it go on.
catch_program() { # ROOM PLACE
    local found
    {
        IFS= read -r -d '' found < <(find "$1" -type f -name program -print0 -quit)
        cp -- "$found" "$2"
        echo '{}'
    } >"$1/pipe" 2>/dev/null
}

# Waits while another run builds the program at PLACE. Descriptor 9 then holds a lock, for as long as it is open.
lock() { # PLACE
    exec 9>>"$1.lock" || exit 2
    if command -v flock >/dev/null && ! flock -n 9; then
        say "another run is building the program: waiting for it"
        flock 9
    fi
}

# Ends the process that waits to copy a program.
end_catcher() {
    kill -KILL -- "$catcher"
    wait "$catcher"
} 2>/dev/null

# Ends what 'build' began, and leaves nothing of it.
end_build() {
    kill -TERM -- "-$rt" 2>/dev/null
    end_catcher
    wait "$rt" 2>/dev/null
    rm -rf -- "$room" "$place.new"
    exec 9>&-
    trap - INT TERM HUP
}

# Builds the program in the folder 'room', as 'place'.new.
run_build() {
    local command=rt kit
    if [[ -z $sanitize ]] && kit=$(find_kit); then
        lay_kit "$kit" "$room/kit" || return
        command=$room/kit/bin/rt
    fi
    mkfifo -- "$room/pipe" || return
    touch -- "$room/start"
    # (in a group of its own, so that all of it is ended where this script is)
    set -m
    # shellcheck disable=SC2154
    (cd -- "$crate" && TMPDIR=$room exec "$command" try -- "${waiting[@]}" "$room/pipe") </dev/null >"$room/log" 2>&1 9>&- &
    rt=$!
    set +m
    catch_program "$room" "$place.new" 9>&- &
    catcher=$!
    wait "$rt"
    end_catcher
}

# Keeps what was built as 'place'. The status is 2, with a line, where that is no program.
keep_built() {
    if runs "$name" "$place.new"; then
        chmod -- 755 "$place.new" && touch -r "$room/start" -- "$place.new" && mv -f -- "$place.new" "$place" || return 2
    elif grep -q '^run=ended ' "$room/log"; then
        say "the program was built, but doesn't run from ${place%/*}"
        return 2
    else
        cp -- "$room/log" "$place.log"
        say "the program can't be built from these sources: $place.log has what rt says"
        return 2
    fi
}

# Builds the program as PLACE, unless another run just did so. The status is 0, or 2 with a line.
build() { # PLACE
    local place=$1 room rt='' catcher='' status
    lock "$place"
    if is_new "$place" src; then
        exec 9>&-
        return
    fi
    room=$(mktemp -d -- "$TMPDIR/$name-build.XXXXXX") || return 2
    trap 'end_build; exit 130' INT TERM HUP
    say "building the program, without proofs: some three minutes, once; later runs take it as it is"
    run_build
    keep_built
    status=$?
    end_build
    return "$status"
}
