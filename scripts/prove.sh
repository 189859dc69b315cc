#!/usr/bin/env bash
# Proves all: `rt ci` checks each crate and its tests, tries each wrong body of must-fail/, and runs the tests and
# programs. Then builds the archive of the C library over what that left. Prints a line a crate; the whole log is
# out/prove.log, which begins with the commit. docs/proof/reading.md says what the words of a verdict mean.
#
#     scripts/prove.sh          KIT names the kit's folder
set -euo pipefail
shopt -s inherit_errexit
cd "$(dirname "$0")/.."
crate=dcsctp_c
kit=${KIT:-$(dirname "$(dirname "$(readlink -f "$(command -v rt)")")")}
[ -d "$kit/rlibs" ] || { echo "prove: $kit isn't the folder of a kit: name it by KIT" >&2; exit 2; }
log=out/prove.log
crates=$(grep -cE '^[a-z_]+[ a-z]*:' crates.txt)

# minutes: how long it has taken so far.
minutes() {
    echo "$((SECONDS / 60)) min so far"
}

# progress: a line for each crate of what rt ci says, at once where one fails. A crate's folder out/ is made when its check begins.
progress() {
    local line name count=0 begun
    while IFS= read -r line; do
        case $line in
            'rt: '*' is kept: '*)
                name=${line#rt: } name=${name%% *} count=$((count + 1))
                echo "[$count/$crates] $name was proved before on this machine"
                ;;
            'rt: '*': its tests are proved' | 'rt: '*': trying its must-fail edits '*)
                echo "        ${line#rt: }, $(minutes)"
                ;;
            'rt: '*' proved')
                name=${line#rt: } name=${name% proved} count=$((count + 1))
                begun=$(stat -c %W "crates/$name/out" 2>/dev/null) || begun=$(date +%s)
                echo "[$count/$crates] $name proved, $(($(date +%s) - begun)) s, $(minutes)"
                ;;
            'rt: '*'NOT PROVED'* | 'rt: '*': NOT REFUSED'*) echo "        ${line#rt: }, $(minutes)" ;;
        esac
    done
}

# words: what rattle gets for the archive, one word a line.
words() {
    local it
    printf '%s\n' --crate-name $crate src/lib.rt --crate-type staticlib --links $crate= \
        --jobs "$RT_JOBS" --backend llvm --toolchain "$kit/toolchain" \
        --antt-project "$kit/rattle/logic/antt-project.json" --logic-built "$kit/logic_built" \
        -L "dependency=$kit/rlibs"
    for it in $(sed -n "s/^$crate staticlib: *//p" crates.txt) std; do
        if [ -d "crates/$it" ]; then
            printf '%s\n' --extern "$it=$PWD/crates/$it/out/rlib/$it.rlib"
        else
            printf '%s\n' --extern "$it=$kit/rlibs/$it.rlib"
        fi
    done
    for it in crates/*/out/rlib; do
        printf '%s\n' -L "dependency=$PWD/$it"
    done
}

# archive: proves the crate of the archive again, since rt ci leaves none, and builds it. `rt lib` would prove each of the
# libraries below again.
archive() {
    local said
    mapfile -t said < <(words)
    (cd crates/$crate && "$kit/bin/rattle" build "${said[@]}" -o out/lib$crate.a) >>"$log" 2>&1 ||
        { tail -n 30 "$log" >&2; return 1; }
    tail -n 1 "$log" >crates/$crate/out/lib$crate.verdict
}

# One job a check, and at most four checks: the copies of a check that is shared out do part of its work again.
processors=$(nproc)
export RT_JOBS=$((processors < 4 ? processors : 4))
echo "prove: $crates crates, an hour or more on four processors; the whole log is $log"
mkdir -p out
git rev-parse HEAD >"$log" 2>/dev/null || echo unknown >"$log"
rm -f crates/$crate/out/lib$crate.{a,verdict}
rt ci 2>&1 | tee -a "$log" | progress || { tail -n 40 "$log" >&2; echo "prove: failed; the whole log is $log" >&2; exit 1; }
tail -n 2 "$log"
{ head -n 1 "$log"; tail -n 2 "$log"; } >out/prove.said
archive
echo "prove: built crates/$crate/out/lib$crate.a, $(minutes)"
