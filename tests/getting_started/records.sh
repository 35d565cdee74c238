# The record of what ./install put, over the copy of kit.sh: a removal stays below the prefix,
# whatever the record says and whatever stands in the way, and an installation replaces nothing by
# a record that isn't to be believed. With the room, the runners and the preparer of prepared.sh.

sum_outside=$(sha256sum <"$unproved" | cut -d ' ' -f 1)
record=$target/share/rtnl/installed

# has_record COMMAND..: a prefix with a program of another origin, and a record of the runner,
# which the command prints.
has_record() {
  prepared bin share/rtnl && by cp "$outside/file" "$target/bin/rtnl" &&
    "$@" >"$folder/record" && chmod a+r "$folder/record" &&
    "${runner[@]}" cp "$folder/record" "$record" && listed "$target" >"$folder/before"
}

# is_left_alone WHY: neither a removal nor an installation changes anything, and both say why.
is_left_alone() {
  ends 1 '' "install: $record $1; nothing was removed" take_as "$target" &&
    ends 1 '' "install: $record $1; nothing was installed" put_as "$target" &&
    listed "$target" | diff "$folder/before" - && is_untouched
}

# disbelieves LINE: a record with this line, behind one that is well formed.
disbelieves() {
  has_record printf '%s\n' "file $sum_outside bin/rtnl" "$1" &&
    is_left_alone 'is no record of this script, by its line 2'
}

# is_no_record COMMAND..: what the command prints is none.
is_no_record() { has_record "$@" && is_left_alone "is no record of this script$why"; }

# takes_program: a program and the record are removed, and nothing outside.
takes_program() {
  ends 0 "$(printf "removed $target/%s\n" bin/rtnl share/rtnl/installed)" '' take_as "$target" &&
    is_untouched && [ ! -e "$target/bin/rtnl" ]
}

# stays_below LINE: a record that names a folder outside; that one is left.
stays_below() { has_record printf '%s\n' "$1" "file $sum_outside bin/rtnl" && takes_program; }

# is_put: the program is put over an empty prefix.
is_put() { prepared && put_as "$target" >/dev/null 2>&1; }

# stays_behind PLACE: this folder of what was put is moved out of the prefix, and a link leads
# there.
stays_behind() {
  local place gone=()
  is_put && mv "$target/$1" "$outside/moved" && ln -s "$outside/moved" "$target/$1" || return
  for place in "${things[@]}"; do
    [[ $place != "$1"/* ]] ||
      gone+=("install: $target/$place is behind a symbolic link, $target/$1; it is left")
  done
  listed "$outside" >"$folder/outside"
  ends 1 "$(printf "removed $target/%s\n" "${things[@]}" | grep -v "^removed $target/$1/")" \
    "$(printf '%s\n' "${gone[@]}")" take_as "$target" && is_untouched && [ -L "$target/$1" ]
}

# stays_behind_record: the record's own folder is a link.
stays_behind_record() {
  is_put && mv "$target/share/rtnl" "$outside/moved" &&
    ln -s "$outside/moved" "$target/share/rtnl" && listed "$outside" >"$folder/outside" &&
    ends 1 '' "install: $target/share/rtnl is a symbolic link; nothing was removed" \
      take_as "$target" && is_untouched
}

# leaves_linked_folder: a folder that the record has is a link to an empty one.
leaves_linked_folder() {
  has_record printf '%s\n' 'folder .' 'folder share/x' "file $sum_outside bin/rtnl" &&
    ln -s "$outside/empty" "$target/share/x" && takes_program && [ -L "$target/share/x" ]
}

# goes_over_old: a record with whole paths, as there were, is read: its folders below the prefix
# are removed, and those above it left.
goes_over_old() {
  has_record printf '%s\n' "folder $room" "folder $target" \
    "folder $target/"{bin,share,share/rtnl} "file $sum_outside bin/rtnl" && takes_program &&
    [ -d "$room" ] && [ ! -e "$target" ]
}

# is_of_other MODE, is_open_to_all: with the sum of a file of another origin.
is_of_other() {
  has_record printf 'file %s bin/rtnl\n' "$sum_outside" && rm "$record" &&
    by cp "$folder/record" "$record" && by chmod "$1" "$record" && listed "$target" >"$folder/before" &&
    is_left_alone "is another user's"
}
is_open_to_all() {
  has_record printf 'file %s bin/rtnl\n' "$sum_outside" && chmod a+w "$record" &&
    listed "$target" >"$folder/before" && is_left_alone 'can be written by every user'
}

# is_empty: a record without a byte is none, which a removal says.
is_empty() {
  local why='is empty, as after a power cut, and is written anew by installing again'
  has_record true && ends 1 '' "install: $record $why; nothing was removed" take_as "$target" &&
    listed "$target" | diff "$folder/before" - && is_untouched
}

# is_written_anew: over such a record files without a byte and those of the same bytes are taken for what was put, and
# then removed; the folders, which it doesn't name, are left.
is_written_anew() {
  has_record true && by mkdir -p "$target/share/man/man1" && by touch "$target/share/man/man1/rtnl.1" &&
    by chmod -R a+rwX "$target/share/man" &&
    ends 0 "$(printf "installed $target/%s\n" "${things[@]}")" "$not_proved" put_as "$target" &&
    cmp -s share/rtnl.jq "$target/share/rtnl/rtnl.jq" && [ -s "$target/share/man/man1/rtnl.1" ] &&
    [ "$(grep -c '^file ' "$record")" = "$((${#things[@]} - 1))" ] && take_as "$target" >/dev/null &&
    [ -z "$(find "$target" ! -type d)" ] && is_untouched
}

# leaves_other: what has other bytes is not.
leaves_other() {
  has_record true && by sh -c 'echo mine >"$0"' "$target/bin/rtnl-record" &&
    is_refused bin/rtnl-record 'is there and was not installed by this script'
}

# replaces_own: what the record has is replaced, and what was changed since is not.
replaces_own() {
  is_put && put_as "$target" >/dev/null 2>&1 && echo >>"$target/bin/rtnl" &&
    is_refused bin/rtnl 'is there and was not installed by this script'
}

# goes_on: an installation that ended between two files goes on, where the record has the sums of
# an older program and of a newer one; and a removal takes what there is.
goes_on() {
  is_put && sed -i "s|^file .* bin/rtnl$|file ${sum_outside//?/0} bin/rtnl\n&|" "$record" &&
    rm "$target/share/rtnl/rtnl.jq" && put_as "$target" >/dev/null 2>&1 &&
    [ "$(grep -c '^file .*bin/rtnl$' "$record")" = 1 ] && [ -e "$target/share/rtnl/rtnl.jq" ] &&
    rm "$target/bin/rtnl" && take_as "$target" >/dev/null
}

# has_nothing PATH: nothing is installed there, and nothing is made for it.
has_nothing() {
  prepared bin/share && by cp "$outside/file" "$target/bin/rtnl" &&
    by cp "$outside/file" "$target/bin/share/rtnl" && listed "$target" >"$folder/before" &&
    ends 1 '' "install: nothing is installed under $target$1" take_as "$target$1" &&
    listed "$target" | diff "$folder/before" -
}

# record_cases WHO
record_cases() {
  local how=() why='' line place
  for line in "file $sum_outside "{../outside/file,"$outside/file",bin/../../outside/file,bin/..} \
    "file $sum_outside "{./bin/rtnl,bin//rtnl,bin/rtnl/,$'bin/a\tb',$'bin/a\e[2Jb',''} \
    "file $sum_outside" "file ${sum_outside^^} bin/rtnl" "FILE $sum_outside bin/rtnl" \
    'file '{00,other,link:../outside/file}' bin/rtnl' 'other bin/rtnl' '' ' ' \
    'folder '{../outside/empty,share/../../outside/empty,..,''} \
    'unproved '{../outside/file,"$outside/file"}; do
    check "$1: a record with the line ${line//[$'\t\e']/?}" disbelieves "$line"
  done
  for line in "$outside/empty" /dev/shm "$target/../outside/empty" "$room"; do
    check "$1: a record with the folder $line" stays_below "folder $line"
  done
  check "$1: an empty record" is_empty
  check "$1: an empty record is written anew" is_written_anew
  check "$1: an empty record beside what is another's" leaves_other
  check "$1: a record without its last line's end" \
    is_no_record printf 'file %s bin/rtnl' "$sum_outside"
  check "$1: a record that is too long" is_no_record awk -v "line=file $sum_outside bin/rtnl" \
    'BEGIN { for (n = 0; n < 20000; n++) print line }'
  why=', by its line 1'
  check "$1: a program for a record" is_no_record cat "$outside/file"
  check "$1: bytes for a record" is_no_record printf '\0\377\n'
  check "$1: a record that every user can write" is_open_to_all
  if [ "$has_users" = yes ]; then
    check "$1: a record of another user" is_of_other 644
    check "$1: a record that another user alone can read" is_of_other 600
  fi
  for place in bin share/man share/man/man1 share/zsh; do
    check "$1: a removal behind a link at $place" stays_behind "$place"
  done
  check "$1: a removal behind a link at the record" stays_behind_record
  check "$1: a removal with a link in place of a folder" leaves_linked_folder
  check "$1: a record of an older version" goes_over_old
  check "$1: what was put is replaced, and what was changed is not" replaces_own
  check "$1: an installation that was cut goes on" goes_on
  check "$1: a removal where nothing is" has_nothing ''
  check "$1: a removal where a file is" has_nothing /bin/rtnl
  check "$1: a removal below a file" has_nothing /bin/rtnl/below
  check "$1: a removal where a file is in place of a folder" has_nothing /bin
}

runner=()
record_cases "$(id -un)"
if [ "$has_users" = yes ] && whole 'records of another user'; then
  runner=(setpriv --reuid 65533 --regid 65533 --clear-groups)
  record_cases 'a user'
fi
