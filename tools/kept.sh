#!/usr/bin/env bash
# The built program, and which sources it belongs to. To be sourced, with `top` the repository's folder.
#
# A program is kept as .jsblock/NAME-SUM: NAME is `jsblock` if it was proved and else `unproved`, and SUM is the checksum of all that its
# build reads. Everything under .jsblock/ may be removed at any time.

# Prints the checksum of all that a build reads: the toolchain's version, crates.txt, HANDLES and the crates' files.
sources_sum() (
    set -o pipefail
    cd "${top:?}" &&
        {
            rt version &&
                find crates.txt HANDLES crates -regex 'crates/[^/]+/out' -prune -o -type f -print0 | LC_ALL=C sort -z | xargs -0 sha256sum
        } | sha256sum | cut -c 1-32
)

# Prints the file of the program with this checksum, whether it is there or not. It is the proved one unless another name is given.
kept_program() {
    printf '%s\n' "${top:?}/.jsblock/${2-jsblock}-$1"
}

# Keeps what was built last as the program with this checksum: under this name, the file that its build left. The proved one if none are
# given. The file comes whole or not at all, and the five newest of the name stay.
keep_program() (
    name=${2-jsblock}
    built=${3-$top/crates/server_program/out/server_program}
    new=new-$BASHPID
    trap 'rm -f "$new"' EXIT
    mkdir -p "${top:?}/.jsblock" &&
        cd "$top/.jsblock" &&
        cp "$built" "$new" &&
        mv -f "$new" "$name-$1" &&
        find . -maxdepth 1 -name "$name-*" -printf '%T@ %f\n' | sort -rn | tail -n +6 | cut -d ' ' -f 2 | xargs -r rm -f
)
