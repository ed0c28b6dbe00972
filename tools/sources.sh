# shellcheck shell=bash
# What programs are made of: for ./celcheck, ./kubecel, ./install and tools/release, which read this file.

# Finds these programs, and each crate of the repository TOP that they stand on: their names, in 'names', and what stands in crates.txt right
# below each, in 'below'.
find_crates() { # TOP PROGRAM..
    local line name at
    local -A listed=()
    while IFS= read -r line || [[ -n $line ]]; do
        line=${line%%#*}
        [[ $line != *:* ]] || listed[${line%%:*}]=${line#*:}
    done <"$1/crates.txt"
    below=()
    names=()
    for name in "${@:2}"; do
        below[$name]=${listed[$name]}
        names+=("$name")
    done
    for ((at = 0; at < ${#names[@]}; at++)); do
        for name in ${below[${names[at]}]}; do
            [[ -v listed[$name] && ! -v below[$name] ]] || continue
            below[$name]=${listed[$name]}
            names+=("$name")
        done
    done
}

# Prints a line for each of these programs and crates: its name, and those right below it.
crates_below() { # TOP PROGRAM..
    local name names
    local -A below
    find_crates "$@"
    for name in "${names[@]}"; do
        # shellcheck disable=SC2086
        echo $name ${below[$name]}
    done | LC_ALL=C sort
}

# Prints the names of these crates alone.
crate_names() { # TOP PROGRAM..
    local names
    local -A below
    find_crates "$@"
    printf '%s\n' "${names[@]}" | LC_ALL=C sort
}

# Leaves the folder of each of these parts of each crate of a program in 'folders'.
find_folders() { # TOP PROGRAM PART..
    local name part names
    local -A below
    find_crates "$1" "$2"
    folders=()
    for name in "${names[@]}"; do
        for part in "${@:3}"; do
            folders+=("$1/crates/$name/$part")
        done
    done
}

# Prints one SHA-256 of all that a program of the repository TOP, a whole path, is made of: its crates' code, specifications and proofs, and
# which crate stands on which.
sum_of_sources() { # TOP PROGRAM
    (
        cd -- "$1" || exit
        find_folders . "$2" src specs proofs
        {
            crates_below . "$2"
            find "${folders[@]}" -type f -print0 2>/dev/null | LC_ALL=C sort -z | xargs -0 sha256sum
        } | sum_of
    )
}

# Prints one SHA-256 of what git has of the same files in the last commit of the clone TOP. Fails where git doesn't know.
sum_of_committed() { # TOP PROGRAM
    (
        # shellcheck disable=SC2086
        unset ${!GIT_@}
        cd -- "$1" || exit
        find_folders . "$2" src specs proofs
        committed=$(GIT_OPTIONAL_LOCKS=0 git ls-tree HEAD -- "${folders[@]}" 2>/dev/null) && [[ -n $committed ]] || exit
        { crates_below . "$2"; echo "$committed"; } | sum_of
    )
}

# Prints the SHA-256 of standard input.
sum_of() {
    sha256sum | cut -d' ' -f1
}

# Prints where ./install puts a program. (The command kubecel is a script around its program.)
place_of() { # PREFIX PROGRAM
    case $2 in
        kubecel) echo "$1/libexec/kubecel/kubecel" ;;
        *) echo "$1/bin/$2" ;;
    esac
}

# Prints what stands behind NAME in the record that ./install writes beside a program.
recorded() { # RECORD NAME
    sed -n "s/^$2: //p" 2>/dev/null <"$1"
}
