#!/usr/bin/env bash
# Standards are cited in one form: `RFC 9260, section 5.2.4` (or sections, or appendix A), and only those
# that this repository rests on. Prints each line that falls short, and fails where there is one.
set -u
cd "$(dirname "$0")/.."
files=$(git ls-files -- '*.rt' '*.antt' '*.md')
known='9260|6525|3758|8260|9653|8831|8832|6458|5681'
bad=$(grep -nE 'RFC' $files \
    | sed -E "s/RFC ($known)(, (sections?|appendix) [0-9A-Z][0-9.]*((,| and| to) [0-9A-Z][0-9.]*)*)?//g" \
    | grep -E 'RFC *-?[0-9]')
[ -z "$bad" ] || { echo "$bad"; echo "citations: not of the form 'RFC 9260, section 5.2.4'"; exit 1; }
bare=$(sed -s -E 's#https?://[^) ]*##g' $files | grep -nE 'RFC9|RFC-|rfc[0-9]')
[ -z "$bare" ] || { echo "$bare"; echo "citations: write 'RFC 9260'"; exit 1; }
