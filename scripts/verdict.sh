#!/usr/bin/env bash
# Prints the file VERDICT of a folder that `make dist` packs: the commit, the kit by its line with the logic's sum, what
# `make prove` said last of all crates and of the archive, and the checksums of the files.
#
#     scripts/verdict.sh FOLDER           ARCHIVE is what rt has built, and KIT the kit's folder
set -euo pipefail
shopt -s inherit_errexit
folder=$(realpath "$1")
cd "$(dirname "$0")/.."

commit=$(git rev-parse HEAD 2>/dev/null || echo unknown)
state=
[ -z "$(git status --porcelain 2>/dev/null)" ] || state=", and changes that are in no commit"
basename "$folder"
echo
echo "Commit: $commit$state"
echo "Kit: $("$KIT/bin/rt" version)"
echo

if [[ $ARCHIVE == *-unproved.a ]]; then
    echo "Nothing of this library is proved. scripts/unproved.sh has built it, to try or to change it."
else
    # scripts/prove.sh writes the commit, and what rt ci says last.
    if [ -z "$state" ] && [ "$(head -n 1 out/prove.said 2>/dev/null)" = "$commit" ]; then
        echo "The proof of all crates (rt ci) said last:"
        echo
        tail -n +2 out/prove.said
    else
        echo "All crates were not proved on this commit here."
    fi
    if [ -e "${ARCHIVE%.a}.verdict" ]; then
        echo
        echo "The proof of the archive said last:"
        echo
        cat "${ARCHIVE%.a}.verdict"
    fi
fi

echo
echo "SHA-256 of the files:"
echo
cd "$folder"
find . -type f -printf '%P\n' | sort | xargs -d '\n' sha256sum
