# What the scripts that make packages need of a packed archive; not run by itself.
#
#     . scripts/archive.bash

# read_archive WHO FILE: reads the archive's name. Sets archive, dist, version, name (dcsctp, or dcsctp-unproved) and how.
read_archive() {
    archive=$(realpath "$2")
    dist=$(basename "$archive" .tar.gz)
    [[ $dist =~ ^dcsctp-([0-9.]+)(-unproved)?-linux-x86_64-v2$ ]] ||
        { echo "$1: $dist isn't an archive of make dist" >&2; exit 2; }
    version=${BASH_REMATCH[1]} name=dcsctp${BASH_REMATCH[2]} how='proved in Rattle'
    [ "$name" = dcsctp ] || how='built without proofs'
}

# quiet COMMAND..: what it prints is of interest if it fails. It goes to a file in $folder.
quiet() {
    "$@" >"$folder/log" 2>&1 || { cat "$folder/log" >&2; exit 1; }
}
