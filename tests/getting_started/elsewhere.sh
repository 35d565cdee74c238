# What README.md and the manual pages say of captures, and of files of rtmon and of traces, in the
# network namespace.

# shown_of_rtmon: what its file shows, as one line of hexadecimal.
shown_of_rtmon() { xxd -p -c0 "$folder/rtmon" | "$user/rtnl" show; }

# types_of_rtmon: the types of the messages in its file.
types_of_rtmon() { shown_of_rtmon | sed -n 's/^message \([0-9]* [a-z]*\) .*/\1/p' | tr '\n' ,; }

has_links() { [ -e "$folder/rtmon" ] && [[ $(types_of_rtmon) =~ ^'15 other,'('16 newlink,')+$ ]]; }
has_links_and_change() { [[ $(types_of_rtmon) =~ ^'15 other,'('16 newlink,')+'15 other,16 newlink,'$ ]]; }
is_long() { [ "$(stat -c %s "$folder/rtmon")" -gt 65536 ]; }

# during_rtmon COMMAND..: rtmon writes its first links, behind a time and without an end; then the command succeeds;
# and a signal ends rtmon, and nothing before.
during_rtmon() {
  local monitor is_met=no
  rm -f "$folder/rtmon"
  rtmon file "$folder/rtmon" &
  monitor=$!
  soon has_links && "$@" && is_met=yes
  kill "$monitor"
  wait "$monitor"
  [ $? = 143 ] && [ "$is_met" = yes ]
}

# A change of a link comes behind a further time.
changes_link() { ip link set lo mtu 1501 && soon has_links_and_change; }
is_rtmon_shown() {
  during_rtmon changes_link && shown_of_rtmon >"$folder/shown" && [ "$(grep -c '^datagram ' "$folder/shown")" = 1 ]
}

# number_of WORD: what stands behind it in the first link that is shown.
number_of() { sed -n "/^message 16 /s/.* $1 \([0-9]*\).*/\1/p" "$folder/shown" | head -n 1; }

# The links are those of the dump, which nothing ended; the times and the notification are not of it.
is_rtmon_tabled() {
  xxd -p -c0 "$folder/rtmon" |
    "$user/rtnl" table --kind link --seq "$(number_of seq)" --port "$(number_of port)" >"$folder/table"
  [ $? = 1 ] && grep -qx 'end none' "$folder/table" && grep -qx 'complete no' "$folder/table" &&
    grep -q '^entries [1-9][0-9]* missed 0 ignored 3 ' "$folder/table"
}

# Lines of 30 bytes are refused, the first behind the time, which has 24 bytes.
is_wrapped_refused() {
  xxd -p "$folder/rtmon" | "$user/rtnl" show >"$folder/shown"
  [ $? = 1 ] && ! grep -q '^message ' "$folder/shown" &&
    [ "$(head -n 2 "$folder/shown")" = $'datagram 1 bytes 30\nrefused cut at 24' ] &&
    [ "$(grep -c '^refused bad length at 0$' "$folder/shown")" -gt "$(($(grep -c ^refused "$folder/shown") / 2))" ]
}

# The same lines, with their ends taken out.
is_joined() { xxd -p "$folder/rtmon" | tr -d '\n' | "$user/rtnl" show | diff - <(shown_of_rtmon); }

# So many changes of a link make the file longer than a datagram may be.
changes_link_often() {
  local size
  for size in $(seq 1502 1562); do ip link set lo mtu "$size" || return; done
  soon is_long
}
is_long_rtmon_refused() {
  during_rtmon changes_link_often &&
    ends 1 "datagram 1 bytes $(stat -c %s "$folder/rtmon")"$'\nrefused too large' '' shown_of_rtmon
}

# The bytes of a recording are no recording.
is_no_text() {
  ends 1 '' "rtnl: line 1: bad line
rtnl: $folder/rtmon: bad line" "$user/rtnl" show "$folder/rtmon"
}

# The same file by the recorder: a datagram for each message, but the times.
is_rtmon_recorded() {
  "$user/rtnl-record" rtmon "$folder/rtmon" | "$user/rtnl" show >"$folder/shown" &&
    [ "$(sed -n 's/^message \([0-9]*\) .*/\1/p' "$folder/shown" | sort -u)" = 16 ] &&
    [ "$(grep -c ^datagram "$folder/shown")" = "$(shown_of_rtmon | grep -c '^message 16 ')" ]
}

# A trace of a program that asks for links, in the file that strace writes.
is_traced() {
  strace -f -o "$folder/trace" -e trace=network -e read=all -e write=all ip link >/dev/null 2>&1 &&
    "$user/rtnl-record" strace "$folder/trace" | "$user/rtnl" show >"$folder/shown" &&
    grep -q '^message 18 getlink ' "$folder/shown" && grep -q '^message 16 newlink ' "$folder/shown" &&
    grep -q '^message 3 done ' "$folder/shown"
}

# A capture holds the datagrams of a recording, as tshark reads it.
is_captured() {
  tshark -r examples/links.pcap -T json -x 2>/dev/null |
    jq -r '.[]._source.layers.frame_raw[0][32:]' | diff examples/links.hex -
}

if has tshark 'a capture' && has jq 'a capture'; then check 'a capture' is_captured; fi
if has_namespace 'recordings from elsewhere'; then
  if has rtmon 'files of rtmon' && has xxd 'files of rtmon'; then
    check 'a file of rtmon' is_rtmon_shown
    check 'a file of rtmon as a table' is_rtmon_tabled
    check 'a file of rtmon, recorded' is_rtmon_recorded
    check 'a wrapped file of rtmon' is_wrapped_refused
    check 'a file of rtmon, wrapped and joined' is_joined
    check 'a file of rtmon as it is' is_no_text
    check 'a long file of rtmon' is_long_rtmon_refused
  fi
  if can_trace 'a trace of links'; then check 'a trace of links' is_traced; fi
fi
for file in examples/*.hex; do
  check "the other order of $file" ends 1 "$(awk '!/^#/ && NF {
    printf "datagram %d bytes %d\nrefused bad length at 0\n", ++count, length($0) / 2 }' "$file")" '' \
    "$user/rtnl" show --order big "$file"
done
