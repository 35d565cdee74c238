# ./install beside another run, after one that was cut, and under any umask, over the copy of kit.sh, with the room and
# the users of prepared.sh.

with=()
runner=()
run=("${from_afar[@]}" "$tree/install")
waits_line="install: waiting for another ./install in $target to end"

# held COMMAND..: the command succeeds while another run has the prefix, which is for as long as $folder/hold is there.
held() {
  local holder is_met=no
  touch "$folder/hold"
  # shellcheck disable=SC2016
  flock "$target" sh -c 'touch "$0.is_there"; while [ -e "$0" ]; do sleep 0.05; done' "$folder/hold" &
  holder=$!
  soon [ -e "$folder/hold.is_there" ] && "$@" && is_met=yes
  rm -f "$folder/hold" "$folder/hold.is_there"
  wait "$holder"
  [ "$is_met" = yes ]
}

# begins WORD..: ./install with these words runs beside, and says that it waits.
begins() {
  "${run[@]}" "$@" "$target" >"$folder/output" 2>"$folder/errors" &
  waiting=$!
  soon grep -qxF "$waits_line" "$folder/errors"
}

# has_ended_well WORD: it ended well, with a line for each thing that was put or removed, and said no more.
has_ended_well() {
  wait "$waiting" && [ "$(<"$folder/output")" = "$(printf "$1 $target/%s\n" "${things[@]}")" ] &&
    [ "$(grep -v ' not proved ' "$folder/errors")" = "$waits_line" ]
}

waits_to_install() { prepared && held begins && has_ended_well installed; }
waits_to_remove() { held begins --remove && has_ended_well removed && [ -z "$(ls -A "$target")" ]; }

# What it waits in is removed meanwhile, and made anew.
begins_and_loses() { begins && rm -r "$target"; }
makes_anew() {
  prepared && held begins_and_loses && has_ended_well installed && take_as "$target" >/dev/null && [ ! -e "$target" ]
}

# A signal ends one that waits, and nothing is put.
begins_and_ends() { begins && kill -s TERM "$waiting"; }
ends_waiting() {
  prepared && held begins_and_ends
  wait "$waiting"
  [ $? = 143 ] && [ -z "$(ls -A "$target")" ]
}

# three_at_once: each of three ends well, over a prefix that none has made before, and what they put is removed.
three_at_once() {
  local pid status=0 pids=()
  prepared
  for _ in 1 2 3; do
    "${run[@]}" "$room/new" >/dev/null 2>&1 &
    pids+=("$!")
  done
  for pid in "${pids[@]}"; do wait "$pid" || status=1; done
  [ "$status" = 0 ] && take_as "$room/new" >/dev/null && [ ! -e "$room/new" ]
}

# modes: what is put has, by its place.
modes() {
  printf '%s\n' "${things[@]}" "${library_things[@]}" | grep -v '/librtnlc\.so$' | sort -u |
    sed -E '/^bin\/|\.so\.0$/{s/^/755 /;t};s/^/644 /' | sort
}

# opens_to_all UMASK: folders that are made, those above the prefix too, and files have the modes that others need,
# and no more.
opens_to_all() {
  local made=$room/above/new/prefix
  prepared && (umask "$1" && "${run[@]}" "$made" && "${run[@]}" --library "$made") >/dev/null 2>&1 &&
    [ -z "$(find "$room/above" -type d ! -perm 755)" ] &&
    diff <(modes) <(find "$made" -type f -printf '%m %P\n' | sort) &&
    { [ "$has_users" = no ] || [ "$(by "$made/bin/rtnl-record" --version)" = "rtnl-record $version" ]; }
}

# keeps_modes: folders that were there keep theirs, and new ones take the group of the one above where it says so.
keeps_modes() {
  prepared && mkdir -m 700 "$target/bin" && mkdir "$target/share" && chmod 2775 "$target/share" &&
    (umask 077 && "${run[@]}" "$target") >/dev/null 2>&1 &&
    [ "$(stat -c %a "$target/bin" "$target/share" "$target/share/man" | xargs)" = '700 2775 2755' ]
}

check 'an installation waits for another' waits_to_install
check 'a removal waits for another' waits_to_remove
check 'an installation waits in what is removed' makes_anew
check 'TERM while it waits for another' ends_waiting
counts=(1 2 3 4) masks=(000 022 027 077)
whole 'three installations at once, but once, and two umasks' || counts=(1) masks=(022 077)
for count in "${counts[@]}"; do check "three installations at once, $count" three_at_once; done
for mask in "${masks[@]}"; do check "the umask $mask" opens_to_all "$mask"; done
check 'folders that were there before' keeps_modes
ways=('new kill' 'new power' 'own kill' 'over power' 'removal kill' 'removal_own kill')
whole 'most runs that are cut' || ways=('new kill')
for words in "${ways[@]}"; do
  mkdir "$folder/cut"
  # shellcheck disable=SC2086
  check "a run that is cut: $words" "$tree/tests/getting_started/cut.py" "$folder/cut" $words
  rm -r "$folder/cut"
done
