#!/usr/bin/env bash
# Fails on a link of a page (*.md) below FOLDER that leads to no file there: what is packed has all that its pages name.
#
#     scripts/links.sh FOLDER
set -euo pipefail
[ $# = 1 ] || { sed -n '/^# *scripts/s/^# *//p' "$0" >&2; exit 2; }
cd "$1"
count=0
bad=0
while IFS=: read -r page target; do
    target=${target#\](}
    [[ $target != *:* ]] || continue
    count=$((count + 1))
    [ -e "$(dirname "$page")/$target" ] || { echo "links: $page: there is no $target"; bad=$((bad + 1)); }
done < <(find . -name '*.md' -exec grep -HoE '\]\([^)# ]+' {} +)
echo "links: $count, $bad dead"
[ "$count" -gt 0 ] && [ "$bad" = 0 ]
