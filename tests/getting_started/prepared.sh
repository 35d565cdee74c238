# ./install over a prefix that somebody else prepared, as root and as a user, over the copy of
# kit.sh: it writes through no symbolic link, and replaces nothing that it did not put there.

# $room has the prefix, and what is outside of it. Who runs ./install, and who prepares the prefix:
# another user where this is root and may be others.
room=$folder/room
outside=$room/outside
target=$room/prefix
runner=() preparer=() with=()
has_users=no
if setpriv --reuid 65534 --clear-groups true 2>/dev/null; then
  has_users=yes
  preparer=(setpriv --reuid 65534 --regid 65534 --clear-groups)
else
  echo 'skipped: what another user prepares, since this is not root, or has one user alone'
fi
forget
start </dev/null >/dev/null 2>&1
"${from_afar[@]}" "$tree/launch/build.py" library 2>/dev/null
chmod a+x "$folder" && chmod -R a+rwX "$tree" &&
  chmod -R a+rX "$kit" "$folder"/{bin,far,empty} || exit 1

# put_as PREFIX, take_as PREFIX: ./install as the runner of now. It hangs on nothing.
put_as() {
  timeout 60 "${runner[@]}" "${from_afar[@]}" "${with[@]}" "$tree/install" "${how[@]}" "$@"
}
take_as() {
  local how=(--remove)
  put_as "$@"
}
by() { "${preparer[@]}" "$@"; }

# prepared FOLDER..: a prefix of the preparer with these folders, and a file and a folder outside.
prepared() {
  rm -rf "$room" && mkdir "$room" && chmod a+rwx "$room" &&
    by mkdir -p "$outside/empty" "$target" "${@/#/"$target/"}" &&
    by cp "$unproved" "$outside/file" && by chmod -R a+rwX "$room"/* &&
    listed "$outside" >"$folder/outside"
}
is_untouched() { listed "$outside" | diff "$folder/outside" -; }

# is_refused PLACE WHY: nothing is put, and what is there stays.
is_refused() {
  listed "$target" >"$folder/before"
  ends 1 '' "install: $target/$1 $2; nothing was installed" put_as "$target" &&
    listed "$target" | diff "$folder/before" - && is_untouched
}

# refuses_link PLACE: this folder of the prefix is a link that leads out of it.
refuses_link() {
  prepared "$(dirname "$1")" && by ln -s "$outside" "$target/$1" &&
    is_refused "$1" 'is a symbolic link'
}

# refuses_in_place PLACE COMMAND..: what the command makes stands in this place.
refuses_in_place() {
  local why='is there and was not installed by this script'
  [ "$1" != share/rtnl/installed ] || why='is not a file'
  prepared "$(dirname "$1")" && by "${@:2}" "$target/$1" && is_refused "$1" "$why"
}

# follows_no_new: links stand under the name that a file has with .new behind it, and are left.
follows_no_new() {
  local place
  prepared "${put_in[@]}" || return
  for place in "${put_things[@]}"; do by ln -s "$outside/file" "$target/$place.new" || return; done
  put_as "$target" >/dev/null 2>&1 && is_untouched && [ -f "$target/${put_things[0]}" ] &&
    take_as "$target" >/dev/null && is_untouched || return
  for place in "${put_things[@]}"; do
    [ "$(readlink "$target/$place.new")" = "$outside/file" ] && [ ! -e "$target/$place" ] || return
  done
}

# follows_no_change: while a folder of the prefix is now itself and now a link, nothing is written
# outside.
follows_no_change() {
  local changer
  prepared "${put_in[@]}" other || return
  # shellcheck disable=SC2016
  by bash -c 'cd "$0" && while [ ! -e stop ]; do
      mv -T "$1" other/kept && ln -s "$2" "$1"; rm "$1"; mv -T other/kept "$1"
    done' "$target" "${put_in[0]}" "$outside" 2>/dev/null &
  changer=$!
  for _ in $(seq 6); do put_as "$target" >/dev/null 2>&1; done
  by touch "$target/stop"
  wait "$changer"
  is_untouched
}

# each_case WHO: what is put with the words of now, which is $put_things.
each_case() {
  local place above places
  mapfile -t put_in < <(printf '%s\n' "${put_things[@]%/*}" | sort -u)
  check "$1: links named .new" follows_no_new
  check "$1: a folder that becomes a link" follows_no_change
  while read -r above; do
    check "$1: a link in place of the folder $above" refuses_link "$above"
  done < <(printf '%s\n' "${put_in[@]}" |
    awk -F/ '{ it = $1; print it; for (n = 2; n <= NF; n++) print it = it "/" $n }' | sort -u)
  places=("${put_things[@]}")
  whole "$1: most places of what is put" || places=("${put_things[0]}" "${put_things[-2]}" "${put_things[-1]}")
  for place in "${places[@]}"; do
    check "$1: a link in place of $place" refuses_in_place "$place" ln -s "$outside/file"
  done
  for place in "${put_things[0]}" share/rtnl/installed; do
    check "$1: a link to nothing in place of $place" refuses_in_place "$place" ln -s "$outside/new"
    check "$1: a pipe in place of $place" refuses_in_place "$place" mkfifo
    check "$1: a folder in place of $place" refuses_in_place "$place" mkdir
  done
  for place in "${places[@]::${#places[@]}-1}"; do
    check "$1: a file in place of $place" refuses_in_place "$place" cp "$outside/file"
  done
  check "$1: a hard link in place of ${put_things[0]}" \
    refuses_in_place "${put_things[0]}" ln "$outside/file"
}

# refuses_way PATH: a link of the preparer on the way to the prefix, or the prefix itself.
refuses_way() {
  local line="install: $room/link is another user's symbolic link; nothing was"
  prepared && by ln -s "$outside" "$room/link" &&
    ends 1 '' "$line installed" put_as "$room/link$1" &&
    ends 1 '' "$line removed" take_as "$room/link$1" && is_untouched
}

# follows_own: one of the runner, who chose that path.
follows_own() {
  prepared && "${runner[@]}" ln -s "$target" "$room/link" &&
    put_as "$room/link" >/dev/null 2>&1 && [ -f "$target/${put_things[0]}" ] &&
    take_as "$room/link" >/dev/null && [ -z "$(ls -A "$target")" ]
}

# In a stage no link is followed, the runner's neither: there it would lead out of the package.
refuses_in_stage() {
  local with=("DESTDIR=$room/stage")
  prepared && mkdir -p "$room/stage$(dirname "$1")" && ln -s "$outside" "$room/stage$1" &&
    chmod -R a+rwX "$room/stage" &&
    ends 1 '' "install: $room/stage$1 is a symbolic link; nothing was installed" \
      put_as /usr/local && is_untouched
}

# names_no_stage: no file of what is put there names it, by a path from here neither.
names_no_stage() {
  local with=(env -C "$room" DESTDIR=stage)
  prepared && put_as /usr/local >/dev/null 2>&1 &&
    [ -f "$room/stage/usr/local/${put_things[0]}" ] &&
    [ -z "$(grep -rlF "$room" "$room/stage")" ] && take_as /usr/local >/dev/null &&
    [ -z "$(ls -A "$room/stage/usr")" ]
}

# all_cases WHO: of the program and of the library.
all_cases() {
  local how=() place put_in put_things=("${things[@]}")
  each_case "$1"
  for place in /usr /usr/local /usr/local/bin; do
    check "$1: a link in a stage at $place" refuses_in_stage "$place"
  done
  check "$1: a program in a stage" names_no_stage
  check "$1: an own link to the prefix" follows_own
  if [ "$has_users" = yes ]; then
    check "$1: a link of another user to the prefix" refuses_way ''
    check "$1: a link of another user above the prefix" refuses_way /empty
  fi
  how=(--library --libdir lib/x)
  put_things=("${library_things[@]/#lib\//lib/x/}")
  each_case "$1, the library"
  check "$1: a library in a stage" names_no_stage
}

all_cases "$(id -un)"
if [ "$has_users" = yes ] && whole 'hostile prefixes of another user'; then
  runner=(setpriv --reuid 65533 --regid 65533 --clear-groups)
  all_cases 'a user'
fi
