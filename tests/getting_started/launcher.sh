# The launcher where it proves, over the copy of kit.sh, and its time once the program is built.

# is_stale FILE: a change of this file makes the program be proved anew, without the note on the first proof.
is_stale() { change "$1" && proves '' && starts_proved; }

# A source that is changed while rt works is newer than the program.
is_stale_meanwhile() {
  sed -i "2i touch $tree/crates/nl_dump/src/lib.rt" "$kit/bin/rt" && touch "$tree/crates.txt" && proves '' &&
    sed -i 2d "$kit/bin/rt" && proves '' && starts_proved
}

# A proof that fails says in which crate, leaves no program that is taken for a current one, and goes on the next time.
fails_in_proof() {
  forget
  ends 3 '' "$(proving "$once" nl_table)
rtnl: nl_table could not be proved and built; see $proof_log" failing nl_table prove <<<"$finish_line" &&
    [ "$(tail -n 1 "$calls")" = 'rt nl_table lib' ] && is_gone "$proved" && proves "$once" && starts_proved
}

# A proved program is run, by its path too, and none is compiled in its place while it is current.
stays_proved() {
  ends 0 "$proved" '' start_for_path && starts && is_gone "$unproved" && starts_proved
}

# A stale one is left where it is, and not run where one may be compiled; the next proof goes over both.
stale_is_not_run() {
  rm -rf "${unproved%/*}"
  change "$1" && answers "rtnl: the program that was proved is older than $1
$compiled" start && ends 0 "$unproved" '' start_for_path && [ -x "$proved" ] && starts && proves '' &&
    starts && is_gone "$unproved"
}

# A compiled program is not run where a proved one is asked for.
none_but_proved() { forget && compiles && proves "$once" && is_gone "$unproved" && starts; }

# least_time: the least milliseconds of thirty runs.
least_time() {
  local least=1000000 begun spent
  for _ in $(seq 30); do
    begun=${EPOCHREALTIME/[.,]/}
    "$user/rtnl" --version >/dev/null 2>&1 || return
    spent=$((${EPOCHREALTIME/[.,]/} - begun))
    [ "$spent" -ge "$least" ] || least=$spent
  done
  echo "$((least / 1000))"
}

missing='rtnl: the program is not built from these sources, and'
# says_unmarked: a program in the place of a proved one, which the kit's tools didn't build, is not.
says_unmarked() {
  cp -p "$proved" "$folder/marked" && sed -i '/rattle logic=/d' "$proved" &&
    says_which 'not proved on this machine' start && mv "$folder/marked" "$proved"
}

check 'no rt on the PATH' ends 3 '' "$missing rt, which builds it, is not on the PATH" without_tools
ln -s "$kit/bin/rt" "$folder/tools/rt"
check 'no Python on the PATH' ends 3 '' "$missing python3, which builds it, is not on the PATH" without_tools
rm "$folder/tools/rt"
check 'a first proof' proves "$once"
check 'a second run' starts_proved
check 'a run without rt and Python' ends 4 $'\n'"$finish_line" '' without_tools <<<"$finish_line"
for file in crates/nl_frame/src/lib.rt crates/rtnl_cli/src/main.rt crates/nl_attr/specs crates/rtnl/proofs \
  crates.txt; do
  check "a change of $file, proved" is_stale "$file"
done
change crates/rtnl_rows/src/lib.rt
check 'a change of a crate that the program does not stand on' starts_proved
check 'a change during a proof' is_stale_meanwhile
check 'a proof that fails' fails_in_proof
check 'a proved program that is current' stays_proved
check 'its version' says_which 'proved on this machine' start
check 'the version of a program without the mark of a proof' says_unmarked
for file in crates/nl_table/src/lib.rt crates/nl_table/specs crates/rtnl/proofs; do
  check "a proved program that is not current, by $file" stale_is_not_run "$file"
done
check 'a proved program is asked for' none_but_proved
forget
touch "${proved%/*}"
check 'a folder that cannot be written' ends 3 '' \
  "rtnl: nothing could be built; $proof_log cannot be written: File exists" prove
forget
check 'nothing is left where it is called' rmdir "$folder/empty"
mkdir "$folder/empty"
check 'a run takes less than 50 ms' [ "$(least_time)" -lt 50 ]
