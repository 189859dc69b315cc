# What the scripts for bindings/usrsctp share; not run by itself.
#
#     . scripts/usrsctp.bash
cc=${CC:-cc}

# has_header: whether usrsctp.h is there.
has_header() {
    echo '#include <usrsctp.h>' | "$cc" -E -x c - >/dev/null 2>&1
}

# set_up LIBRARY FOLDER: makes the folder. Sets library, folder and compile, which is the compiler with its flags.
set_up() {
    library=$(realpath "$1")
    mkdir -p "$2"
    folder=$(realpath "$2")
    compile=("$cc" -std=c11 -D_DEFAULT_SOURCE -Wall -Wextra -Wshadow -pedantic -Werror -O2 -g -Iinclude)
}
