# What scripts share that count a table of docs/figures.md. The file's table is the one whose first line is the same.

# values NAME [CONDITION]: that value of each run in which the condition holds on its values, in ascending order. A run
# is a line of names and values. One that doesn't have the name doesn't count.
values() {
    awk -v name="$1" "{ delete it; for (i = 1; i < NF; i += 2) it[\$i] = \$(i + 1) }
        (${2:-1}) && name in it { print it[name] }" | sort -g
}

# spread FORM UNIT: the least of the values that come, the median and the greatest, by their unit; one of them if they
# are the same, and a dash if there is none.
spread() {
    awk -v form="$1" -v unit="$2" '{ all[NR] = $1 / unit }
        END {
            if (NR == 0) { print "-"; exit }
            median = (all[int((NR + 1) / 2)] + all[int(NR / 2) + 1]) / 2
            least = sprintf(form, all[1])
            most = sprintf(form, all[NR])
            if (least == most) print least
            else print least "/" sprintf(form, median) "/" most
        }'
}

# sum: of the values that come.
sum() {
    awk '{ sum += $1 } END { print sum + 0 }'
}

# replaced FILE TEXT: the file with this table in place of its own.
replaced() {
    awk -v table="$2" -v first="${2%%$'\n'*}" '$0 == first { print table; skips = 1 } !/^\|/ { skips = 0 } !skips' "$1"
}

# keep_table NAME TEXT [--check | --write]: prints the table, fails if the file has another one or none, or puts it there.
keep_table() {
    local file=docs/figures.md text
    case ${3:-} in
        --check | --write)
            grep -qxF -e "${2%%$'\n'*}" "$file" || { echo "$1: $file has no table that begins so" >&2; exit 1; }
            text=$(replaced "$file" "$2")
            ;;
    esac
    case ${3:-} in
        --check)
            printf '%s\n' "$text" | diff "$file" - || {
                echo "$1: $file has another table; scripts/$1.sh --write mends it" >&2
                exit 1
            }
            ;;
        --write) printf '%s\n' "$text" >"$file" ;;
        *) printf '%s\n' "$2" ;;
    esac
}
