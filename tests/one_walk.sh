#!/usr/bin/env bash
# The sources go over the bytes of attributes in two walks, one that reads them into trees and one that scans
# them, and either counts what it visits: helpers/search_walks.sh finds no other. Then the search is tried: each
# edit of data/further_walks/, put into a copy of the sources, is a further walk or one that isn't counted, and
# the search finds it. The last line is 'N passed, M failed', and the status is 1 where a case failed.
set -u
cd "$(dirname "${BASH_SOURCE[0]}")/.." || exit 1
. tests/helpers/cases.sh

# field NAME EDIT: the text behind this name.
field() { sed -n "s/^$1: //p" "$2"; }

# apply EDIT: the edit's old text stands once in its file of the copy, and becomes the new one.
apply() {
  local file old new text rest
  file=$folder/$(field file "$1")
  old=$(field old "$1")
  new=$(field new "$1")
  text=$(<"$file") || return 1
  rest=${text#*"$old"}
  [[ $text == *"$old"* && $rest != *"$old"* ]] || return 1
  printf '%s%s%s\n' "${text%%"$old"*}" "$new" "$rest" >"$file"
}

# is_found EDIT: the search says so of a copy with this edit, and nothing of one without.
is_found() {
  rm -rf "$folder/crates"
  find crates -path '*/src/*.rt' -not -path '*/out/*' -exec cp --parents -t "$folder" {} + &&
    tests/helpers/search_walks.sh "$folder" >/dev/null && apply "$1" &&
    ! tests/helpers/search_walks.sh "$folder" >/dev/null
}

check 'the sources' tests/helpers/search_walks.sh .
for edit in tests/data/further_walks/*.edit; do
  check "$edit is found" is_found "$edit"
done

finish
