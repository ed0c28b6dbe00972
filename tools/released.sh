# shellcheck shell=bash
# The folder release/, as ./celcheck, ./kubecel, ./install and tools/release read it. Such a script sets 'here', the top of the repository, has
# read tools/sources.sh, and has an array 'left' of what it removes as it ends. In release/ lie
#
#   NAME.gz       each program for Linux on x86-64, without its symbols
#   record        lines 'KEY: VALUE': the version, the commit and the kit of the programs, the last line of the 'rt ci' that proved them, and of
#                 each program the SHA-256 of its sources ('NAME sources'), of what git has of them ('NAME committed'), and of the program
#                 ('NAME sha256')
#   SHA256SUMS    the SHA-256 of all these files, as sha256sum writes it
#
# Where a function here fails for a reason that a user has to know, it leaves that in 'fault'.

# shellcheck disable=SC2034,SC2154  # 'here' and 'left' are set by the script, which reads 'fault'
release=$here/release
record=$release/record

# Is PROGRAM that of the record, and can it be run? It is a fault where the record isn't the file that SHA256SUMS names.
compare_release() { # NAME PROGRAM
    local sums found program=$2
    fault=
    [[ -f $program && -x $program ]] || program=/dev/null
    sums=$'\n'$(<"$release/SHA256SUMS")$'\n'
    mapfile -t found <<<"$(cd -- "$release" && exec sha256sum -- record - <"$program")"
    [[ $sums == *$'\n'"${found[0]:--}"$'\n'* ]] || fault="$record isn't the file that SHA256SUMS names there"
    [[ -z $fault && ${found[1]} == "$(recorded "$record" "$1 sha256")  -" ]]
} 2>/dev/null

# Unpacks a program to PLACE, with the time 0. It is a fault where what is packed isn't the file that SHA256SUMS names, or the program isn't the
# one of the record, or doesn't run here.
unpack_released() { # NAME PLACE
    fault="there is no room for the program at $2"
    # (what one left that was killed)
    find "${2%/*}" -maxdepth 1 -name "${2##*/}.??????" -mmin +60 -delete
    left+=("$(mktemp -- "$2.XXXXXX")") || return
    if ! grep -q -x -F -e "$(sum_of <"$release/$1.gz")  $1.gz" -- "$release/SHA256SUMS"; then
        fault="$release/$1.gz isn't the file that SHA256SUMS names there"
    elif ! gzip -dc -- "$release/$1.gz" >"${left[-1]}"; then
        fault="$release/$1.gz can't be unpacked to ${2%/*}: it is broken, or there is no room, or no command 'gzip'"
    elif [[ $(sum_of <"${left[-1]}") != "$(recorded "$record" "$1 sha256")" ]]; then
        fault="$release/$1.gz isn't the program of the record there"
    elif ! chmod -- 755 "${left[-1]}" || ! touch -d @0 -- "${left[-1]}" || ! runs "$1" "${left[-1]}"; then
        fault="the released program doesn't run in ${2%/*}: it needs Linux on x86-64, with the GNU C library 2.34 or later, and a file system that runs programs"
    elif mv -f -T -- "${left[-1]}" "$2"; then
        unset 'left[-1]'
        fault=
    fi
    [[ -z $fault ]]
} 2>/dev/null

# Does a program run here?
runs() { # NAME PROGRAM
    case $1 in
        celcheck) [[ $("$2" eval '1 + 1') == 2 ]] ;;
        *) "$2" --version >/dev/null ;;
    esac
} 2>/dev/null
