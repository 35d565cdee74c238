# What standard error has where it is a terminal, read in by ../program.sh: one line more on what
# can be done.

if ! python3 -c 'import os; os.openpty()' 2>/dev/null; then
  echo 'skipped: what a terminal shows, since none can be opened here'
  return
fi
seen_on_terminal() { tests/program/on_terminal.py "$program" "$@"; }

# on_terminal NAME STATUS OUTPUT ERRORS [ARGUMENT..]: a case as `expect` has it, standard error
# being a terminal.
on_terminal() {
  local name=$1 status=$2 output=$3 errors=$4
  shift 4
  check "on a terminal: $name" ends "$status" "$output" "$errors" seen_on_terminal "$@"
}

# A limit, and the option that lifts it. What was missed is counted by messages, a link that came
# twice by two.
lifted='rtnl: missed 1: the limit is 1 entries; --entries sets another, up to 65536'
on_terminal 'a full table' 1 "$full_table" "$lifted" "${links[@]}" --entries 1 <<<"$three_messages"
expect 'a full table, explained' 1 "$full_table" "$lifted" "${links[@]}" --entries 1 --explain \
  <<<"$three_messages"
on_terminal 'a full table in JSON' 1 "$any" \
  'rtnl: missed 3: the limit is 0 entries; --entries sets another, up to 65536' \
  "${links[@]}" --entries 0 --format json <<<"$three_messages"
on_terminal 'the standard number of entries' 1 "$any" \
  'rtnl: missed 1: the limit is 4096 entries; --entries sets another, up to 65536' \
  "${links[@]}" < <(many_links 4097 && echo "$finish")
on_terminal 'the greatest number of entries' 1 "$any" \
  'rtnl: missed 1: the limit is 65536 entries, and no option lifts it' \
  "${links[@]}" --entries 65536 < <(many_links 65537 && echo "$finish")
on_terminal 'a full table of rules, damaged' 1 'dump rule seq 1 port 12345
datagram 1 refused cut at 48
end done 0
entries 0 missed 1 ignored 0 unfed 0 damaged yes interrupted no
received 122 visits 32
complete no' 'rtnl: missed 1: the limit is 0 entries; --entries sets another, up to 65536' \
  table --kind rule --seq 1 --port 12345 --entries 0 < <(printf '%s\n' "$cut" "$rule $finish")

# Messages of another dump.
unheard='dump link seq 2 port 12345
end none
entries 0 missed 0 ignored 2 unfed 0 damaged no interrupted no
received 68 visits 16
complete no'
known='rtnl: ignored 2: no message has seq 2 port 12345; all have seq 1 port 12345'
other_seq=(table --kind link --seq 2 --port 12345)
on_terminal 'another sequence number' 1 "$unheard" "$known" "${other_seq[@]}" \
  < <(printf '%s\n' "$loopback" "$finish")
expect 'another sequence number, explained' 1 "$unheard" "$known" "${other_seq[@]}" --explain \
  < <(printf '%s\n' "$loopback" "$finish")
expect 'another sequence number, neither' 1 "$unheard" '' "${other_seq[@]}" \
  < <(printf '%s\n' "$loopback" "$finish")
on_terminal 'another port, order big' 1 'dump link seq 1 port 1
end none
entries 0 missed 0 ignored 2 unfed 0 damaged no interrupted no
received 68 visits 16
complete no' 'rtnl: ignored 2: no message has seq 1 port 1; all have seq 1 port 12345' \
  table --kind link --seq 1 --port 1 --order big <<<"$loopback_big $finish_big"
on_terminal 'messages of two dumps' 1 'dump link seq 3 port 12345
end none
entries 0 missed 0 ignored 2 unfed 0 damaged no interrupted no
received 68 visits 16
complete no' 'rtnl: ignored 2: no message has seq 3 port 12345; the first has seq 2 port 12345' \
  table --kind link --seq 3 --port 12345 \
  < <(printf '%s\n' "${loopback/01000000/02000000}" "$finish")
on_terminal 'another sequence number, a refused datagram of its own' 1 'dump link seq 1 port 12345
datagram 1 refused cut at 48
end none
entries 0 missed 0 ignored 1 unfed 0 damaged yes interrupted no
received 78 visits 16
complete no' 'rtnl: ignored 1: no message has seq 1 port 12345; all have seq 2 port 12345' \
  "${links[@]}" < <(printf '%s\n' "$cut" "${finish/01000000/02000000}")
on_terminal 'a dump without its end' 1 "dump link seq 1 port 12345
entry 1
$loopback_body
end none
entries 1 missed 0 ignored 1 unfed 0 damaged no interrupted no
received 96 visits 32
complete no" '' "${links[@]}" < <(printf '%s\n' "$loopback" "${loopback/01000000/02000000}")
on_terminal 'a dump of another kind without its end' 1 'dump addr seq 1 port 12345
end none
entries 0 missed 0 ignored 1 unfed 0 damaged no interrupted no
received 48 visits 16
complete no' "$other_kind" "${addrs[@]}" <<<"$loopback"
on_terminal 'no datagram' 1 "$nothing" '' "${links[@]}" </dev/null
on_terminal 'a complete table' 0 "$one_link" '' "${links[@]}" <<<"$loopback $finish"
on_terminal 'a complete table, one message ignored' 0 "$any" '' "${links[@]}" <<<"$finish $loopback"

# An input that is too long.
on_terminal 'an input too long' 3 '' "$(too_long 'standard input')" <"$folder/too_long"
on_terminal 'an input too long, checked' 3 '' "$(too_long 'standard input')" check --format json <"$folder/too_long"
on_terminal 'an input too long, of a table' 3 '' "$(too_long 'standard input')" "${links[@]}" <"$folder/too_long"
on_terminal 'a FILE too long' 3 '' "$(too_long "$folder/too_long")" show "$folder/too_long" </dev/null
on_terminal 'a FILE too long, of a table' 3 '' "$(too_long "$folder/too_long")" "${links[@]}" "$folder/too_long"
expect 'a FILE too long, explained' 3 '' "$(too_long "$folder/too_long")" show --explain "$folder/too_long"

# Nothing more is said of these.
on_terminal 'the longest input' 0 "$finish_text" '' <"$folder/longest"
on_terminal 'a refused datagram' 1 "$loopback_refused" '' show --order big "$folder/link"
on_terminal 'a bad line' 1 '' "$bad_first_line" <<<0g
on_terminal 'a bad line of a table' 1 '' "$bad_first_line" "${links[@]}" <<<0g
on_terminal 'a missing file' 3 '' "$(unread "$folder/missing" "$missing")" show "$folder/missing"
on_terminal 'a folder' 3 '' "$(unread "$folder" "$is_folder")" show "$folder"
on_terminal 'a folder as a table' 3 '' "$(unread "$folder" "$is_folder")" "${links[@]}" "$folder"
full_on_terminal() { seen_on_terminal "$@" >/dev/full; }
check 'on a terminal: a full device' ends 3 '' "$full_device" \
  full_on_terminal "${links[@]}" --entries 0 <<<"$three_messages"

# What was counted is the last line where it follows, at the end of the input.
on_terminal 'followed' 0 "$finish_text" 'rtnl: 1 datagrams, 0 refused, 0 bad lines' \
  follow <<<"$finish"
on_terminal 'followed, nothing' 0 '' 'rtnl: 0 datagrams, 0 refused, 0 bad lines' follow </dev/null
on_terminal 'followed, a refused datagram and bad lines' 1 "$finish_text
datagram 2 bytes 52
refused bad length at 32" 'rtnl: line 1: bad line
rtnl: line 4: bad line
rtnl: 2 datagrams, 1 refused, 2 bad lines' follow \
  < <(printf '%s\n' zz "$finish" '# note' 123 "$short_attribute")
on_terminal 'followed strictly' 1 "$finish_text" 'rtnl: line 2: bad line
rtnl: 1 datagrams, 0 refused, 1 bad lines' follow --strict \
  < <(printf '%s\n' "$finish" zz zz "$finish")
on_terminal 'followed, FILE, explained' 1 "$loopback_text" "rtnl: line 1: bad line
rtnl: $folder/some_bad: line 1, column 1: byte 0x7a is no hexadecimal digit
rtnl: 1 datagrams, 0 refused, 1 bad lines" follow --explain "$folder/some_bad"
on_terminal 'followed, a missing file' 3 '' "$(unread "$folder/missing" "$missing")" \
  follow "$folder/missing"
check 'on a terminal: followed, a full device' ends 3 '' "$full_device" \
  full_on_terminal follow <<<"$finish"
