# shellcheck shell=bash
# How ./celcheck and ./kubecel find their program, and build it where there is none. A script sets these and calls 'find_program':
#
#   here      the top of the repository, a whole path
#   name      the program's name, which is that of its crate
#   waiting   words behind which the program takes the path of a file, which it then reads first
#   quiet     1 hides the line that says that a run is not proved, or of an earlier commit
#   sanitize  'sanitized' asks for a program that is built with an address sanitizer, for the work on it; else empty
#
# 'find_program' leaves the whole path of the program in 'program': the first of these that is made of the sources as they are.
#
#   crates/NAME/out/NAME           proved: 'rt ci' leaves it, and so does 'rt run' in crates/NAME
#   release/NAME.gz                proved: tools/release packed it. Unpacked to crates/NAME/out/NAME-released
#   that of PREFIX/bin/NAME        proved: ./install made it. Found by the path that ./install left in crates/NAME/out/installed, or as
#                                  the NAME of PATH
#   crates/NAME/out/NAME-unproved  not proved: the first run builds it, and a later one where a source is newer
#
# Without the kit, which builds the last, that of release/ is taken as it is. A release that isn't as its record says is never run.
#
# Where the program can't be kept in crates/NAME/out, or run there, each run unpacks or builds it, in a folder that is added to 'left', the list
# of what the script removes as it ends.
#
# 'about_program' then prints the commit of the program's sources, where that is known, and whether the program is proved.

# shellcheck disable=SC2154  # 'here', 'name', 'waiting', 'quiet' and 'sanitize' are set by the script
# shellcheck source=tools/sources.sh
. "$here/tools/sources.sh" || exit 2
# shellcheck source=tools/released.sh
. "$here/tools/released.sh" || exit 2
# shellcheck source=tools/build.sh
. "$here/tools/build.sh" || exit 2

crate=$here/crates/$name
proved=$crate/out/$name
released=$crate/out/$name-released

say() {
    printf '%s\n' "$name: ${*//'##['/'##\u005b'}" >&2
}

# Says something of how far a run is to be trusted.
note() { # WORD..
    [[ -n $quiet ]] || say "$* (${name^^}_QUIET=1 hides this line)"
}

# Is the kit here, which builds programs? (Others have a command 'rt' too.)
has_kit() {
    local rt
    rt=$(type -P rt) && rt=$(realpath -- "$rt") && [[ -f ${rt%/*}/rtlib.py ]]
}

# Is there a program at PATH? (bash runs an empty file as an empty script.)
is_program() { # PATH
    [[ -f $1 && -x $1 && -s $1 ]]
}

# Is PROGRAM there, and is neither crates.txt nor one of these parts of a crate that it is made of newer?
is_new() { # PROGRAM PART..
    local made=$1 folders
    is_program "$made" || return
    find_folders "$here" "$name" "${@:2}"
    [[ -z $(find "$here/crates.txt" "${folders[@]}" -newer "$made" -print -quit 2>/dev/null) ]]
}

# Runs git on this repository, whatever the environment says of another one.
git_here() { # WORD..
    # shellcheck disable=SC2086
    (unset ${!GIT_@}; GIT_OPTIONAL_LOCKS=0 exec git -C "$here" "$@")
} 2>/dev/null

# Do the program's sources stand here as in the last commit?
is_clean() {
    local folders changed
    find_folders "$here" "$name" src specs proofs
    changed=$(git_here status --porcelain --untracked-files=normal -- crates.txt "${folders[@]#"$here/"}") && [[ -z $changed ]]
}

# Is the release of the sources as they are? The status is 2 where that isn't known: without git or its folder, and without the kit.
is_release_current() {
    local committed
    if committed=$(sum_of_committed "$here" "$name"); then
        [[ $committed == "$(recorded "$record" "$name committed")" ]] && is_clean
    elif has_kit; then
        [[ $(sum_of_sources "$here" "$name") == "$(recorded "$record" "$name sources")" ]]
    else
        return 2
    fi
}

# Leaves the released program in 'program', unpacked where it wasn't yet. Ends with status 2, and one line, where the release isn't as its
# record says.
take_released() {
    local fault
    program=$released
    compare_release "$name" "$program" && return
    [[ -z $fault ]] || { say "$fault"; exit 2; }
    if { mkdir -p -- "$crate/out" && [[ -w $crate/out ]]; } 2>/dev/null && unpack_released "$name" "$program"; then return; fi
    left+=("$(mktemp -d -- "$TMPDIR/$name-run.XXXXXX")") || exit 2
    program=${left[-1]}/$name
    unpack_released "$name" "$program" || { say "$fault"; exit 2; }
}

# Was the release seen to be of the sources as they are, with no change since? Without the kit that is a change of the last commit, each of
# which git writes to a file; with it, one in the crates' folders. (A file may keep an earlier time of its content, as by 'cp -p', so that of its
# last change counts.)
is_seen() {
    local names found log=$here/.git/logs/HEAD
    local -A below
    is_program "$released" && [[ ! $record -nt $released ]] || return
    if [[ -f $log ]] && ! has_kit; then
        [[ ! $log -nt $released && ! $here/crates.txt -nt $released ]]
        return
    fi
    find_crates "$here" "$name"
    found=$(find "$record" "$here/crates.txt" "${names[@]/#/"$here/crates/"}" -name out -prune -o -cnewer "$released" -print -quit 2>/dev/null)
    [[ $? -eq 0 && -z $found ]]
}

# Takes the released program, which has then been seen to be of the sources as they were at this time.
take_released_at() { # TIME
    take_released
    # (where it is another user's file, that is looked at again at each start)
    touch -d "$1" -- "$program" 2>/dev/null || true
}

# Leaves the released program in 'program', if it is of the sources as they are, or nothing is known of that.
find_released() {
    local now=@$EPOCHSECONDS
    [[ -e $record ]] || return
    if is_seen; then
        take_released
        return
    fi
    is_release_current
    case $? in
        0) take_released_at "$now" ;;
        2) take_released_at @0 ;;
        *) return 1 ;;
    esac
}

# Leaves the released program in 'program', whatever its sources are.
find_older_release() {
    [[ -e $record ]] || return
    take_released_at @0
    note "the crates here aren't those of the released program, which is of commit $(recorded "$record" commit)"
}

# Finds the program that ./install made of these sources, in 'program', and its record in 'record'.
find_installed() {
    local command prefix found noted=
    [[ ! -f $crate/out/installed ]] || noted=$(cat -- "$crate/out/installed" 2>/dev/null)
    for command in "$noted" "$(type -P "$name")"; do
        [[ $command == /* ]] || command=$PWD/$command
        prefix=${command%/bin/"$name"}
        [[ $prefix != "$command" ]] || continue
        program=$(place_of "$prefix" "$name")
        found=$prefix/share/$name/proved
        if is_program "$program" && [[ -f $found && $(recorded "$found" sha256) == "$(sum_of <"$program")" &&
            $(recorded "$found" sources) == "$(sum_of_sources "$here" "$name")" ]]; then
            record=$found
            return
        fi
    done
    return 1
}

# Can a program be kept in crates/NAME/out?
can_keep() {
    mkdir -p -- "$crate/out" && [[ ! -p $crate/out/$name-unproved.lock ]] && true >>"$crate/out/$name-unproved.lock"
} 2>/dev/null

# Leaves a program that isn't proved in 'program', and builds it where it isn't there. Ends with status 2, and one line, where that can't be.
find_unproved() {
    local slow=
    program=$crate/out/$name-${sanitize:-unproved}
    if ! is_new "$program" src; then
        if ! has_kit; then
            say "there is no program yet, and the Rattle kit that builds it isn't here (no command 'rt'): see $here/README.md"
            exit 2
        fi
        if ! can_keep; then
            say "$crate/out can't be written, so each run builds the program"
            left+=("$(mktemp -d -- "$TMPDIR/$name-run.XXXXXX")") || exit 2
            program=${left[-1]}/$name
        fi
        build "$program" || exit
    fi
    [[ -z $sanitize ]] && find_kit >/dev/null || slow=', and takes some 25 microseconds for each byte of JSON'
    note "this run is not proved$slow; ./install makes the proved program"
}

# Leaves the path of the program in 'program', and in 'origin' whether it was built 'here', is 'recorded' with its commit, or is 'unproved'. Ends
# with status 2, and one line, where there is none and none can be built.
find_program() {
    if [[ -z $sanitize ]]; then
        origin=here
        program=$proved
        is_new "$program" src specs proofs && return
        origin=recorded
        find_released && return
        find_installed && return
        has_kit || ! find_older_release || return 0
    fi
    origin=unproved
    find_unproved
}

# Prints the commit of the program's sources, where that is known, and whether the program is proved.
about_program() {
    local found commit=''
    if [[ $origin == recorded ]]; then
        commit=$(recorded "$record" commit)
        commit=${commit:0:12}
    else
        # (a repository around this one has other commits)
        mapfile -t found <<<"$(git_here rev-parse --show-prefix HEAD)"
        if [[ ${#found[@]} -eq 2 && -z ${found[0]} ]]; then
            commit=${found[1]:0:12}
            is_clean || commit+=' and changes'
        fi
    fi
    [[ $origin != unproved ]] && origin='' || origin='not '
    echo "${commit:+commit $commit, }${origin}proved"
}
