# Captures of a live kernel in examples/, each with the tools of its source: rtnl shows the same of what rtnl-record
# makes of one as of the same datagrams as lines of hexadecimal, which come from elsewhere.

# shows_same LINES COMMAND..: the command gives datagrams, and rtnl shows of them what it shows of these lines, which
# it takes for canonical.
shows_same() {
  local lines=$1
  shift
  "$@" >"$folder/recording" 2>"$folder/errors" && [ ! -s "$folder/errors" ] &&
    "$program" show "$lines" >"$folder/expected" && "$program" show "$folder/recording" >"$folder/shown" &&
    [ -s "$folder/shown" ] && diff "$folder/expected" "$folder/shown" &&
    ! "$program" check "$folder/recording" | grep -v ' canonical$'
}

# rows_joined FILE FROM TO WORD: the digits in these columns, a line for each part that begins behind a line with
# this word.
rows_joined() {
  awk -v "from=$2" -v "to=$3" -v "word=$4" '$0 ~ word { if (text) print text; text = "" }
    /^ \| |^0/ { text = text substr($0, from, to - from + 1) } END { print text }' "$1" | tr -d ' '
}

# with_packets COMMAND..: links.pcap, as the command changes it into another file, which it names last.
with_packets() { "$@" examples/links.pcap "$folder/changed" && record pcap "$folder/changed"; }

check 'links.pcap' shows_same examples/links.hex record pcap examples/links.pcap
check 'links.pcap on standard input' shows_same examples/links.hex record pcap - <examples/links.pcap
check 'addresses.pcapng' shows_same examples/addresses.hex record pcap examples/addresses.pcapng
if has editcap 'other forms of captures'; then
  for form in pcap nsecpcap pcapng; do
    check "editcap -F $form" shows_same examples/links.hex with_packets editcap -F "$form"
  done
fi
if has tcpdump 'captures that tcpdump reads'; then
  read_by_tcpdump() { tcpdump -r "$1" -w - 2>/dev/null | record pcap -; }
  check 'tcpdump -w of links.pcap' shows_same examples/links.hex read_by_tcpdump examples/links.pcap
fi
if has tshark 'captures that tshark writes'; then
  read_by_tshark() { tshark -r "$1" -w - 2>/dev/null | record pcap -; }
  check 'tshark -w of addresses.pcapng' shows_same examples/addresses.hex read_by_tshark examples/addresses.pcapng
  dumped_by_tshark() { tshark -r "$1" -x 2>/dev/null | record xxd --cooked; }
  check 'tshark -x of links.pcap' shows_same examples/links.hex dumped_by_tshark examples/links.pcap
fi

# at_zero: each line behind the time of the packets of links.pcap.
at_zero() { sed 's/^/# 1970-01-01T00:00:00.000000Z\n/'; }

# A capture of Ethernet beside netlink, and one that was cut at the front of its second packet.
if has text2pcap 'a capture of Ethernet' && has mergecap 'a capture of Ethernet'; then
  merged() {
    echo '0000 ff ff ff ff ff ff 02 00 00 00 00 01 08 06 00 00' |
      text2pcap -q - "$folder/ethernet" 2>/dev/null &&
      mergecap -a -F pcapng -w "$folder/merged" "$folder/ethernet" examples/links.pcap &&
      ends 0 "$(at_zero <examples/links.hex)" "rtnl-record: $folder/merged: left out: 1 packet of link type 1" \
        record pcap "$folder/merged"
  }
  check 'Ethernet beside netlink' merged
fi
check 'links.pcap without its end' ends 1 "$(head -n 1 examples/links.hex | at_zero)" \
  'rtnl-record: standard input: byte 1524: the capture ends within a packet of 36 bytes' \
  record pcap - < <(head -c -1 examples/links.pcap)

# A file of rtmon is messages, which rtnl shows of one line too, with a message of type 15 for each time.
without_datagrams() { grep -v '^datagram ' | sed '/^message 15 other /,+1d'; }
is_rtmon() {
  record rtmon "$1" >"$folder/recording" &&
    diff <(xxd -p -c0 "$1" | "$program" show | without_datagrams) \
      <("$program" show "$folder/recording" | without_datagrams) &&
    [ "$("$program" show "$folder/recording" | grep -c ^datagram)" = \
      "$("$program" show "$folder/recording" | grep -c ^message)" ] && are_timed <"$folder/recording"
}
# are_timed: each datagram stands behind a line with its time.
are_timed() {
  ! sed -E 's/^# 20..-..-..T..:..:..\.......Z received$/time/; s/^[0-9a-f]+$/datagram/' | paste - - |
    grep -vx $'time\tdatagram'
}
check 'links.rtmon' is_rtmon examples/links.rtmon

rows_joined examples/rules.strace 11 58 '^[0-9]' | grep . >"$folder/rules"
check 'rules.strace' shows_same "$folder/rules" record strace examples/rules.strace
check 'rules.strace has both ways' [ "$(record strace examples/rules.strace | grep '^#' | sort -u)" = \
  $'# received\n# sent' ]
rows_joined examples/rules.xxd 11 49 '^00000000' | grep . >"$folder/rules"
check 'rules.xxd' shows_same "$folder/rules" record xxd examples/rules.xxd
check 'changes.hex' [ "$("$program" check examples/changes.hex | grep -c ' canonical$')" = \
  "$(grep -c '^# .*Z received$' examples/changes.hex)" ]
check 'times of changes.hex' are_timed < <(sed 1d examples/changes.hex)

# dumped_by COMMAND..: what the command prints of the bytes of each line of routes.hex.
dumped_by() {
  local line
  grep -v '^#' examples/routes.hex | while read -r line; do xxd -r -p <<<"$line" | "$@"; done | record xxd
}
if has xxd 'dumps in hexadecimal'; then
  for option in '' -a -u '-g 1' '-c 32' '-c 7 -g 3'; do
    # shellcheck disable=SC2086
    check "xxd $option" shows_same examples/routes.hex dumped_by xxd $option
  done
fi
if has hexdump 'dumps of hexdump'; then
  check 'hexdump -C' shows_same examples/routes.hex dumped_by hexdump -C
  check 'hexdump -C -v' shows_same examples/routes.hex dumped_by hexdump -C -v
  check 'hexdump' shows_same examples/routes.hex dumped_by hexdump
  check 'hexdump -v' shows_same examples/routes.hex dumped_by hexdump -v
fi

# Times are those that tshark has of the same packets.
has_times_of_tshark() {
  diff <(tshark -r "$1" -T fields -e frame.time_epoch 2>/dev/null | while read -r time; do
    date -u -d "@$time" +'# %FT%T.%6NZ'
  done) <(record pcap "$1" | grep '^#')
}
if has tshark 'times of captures'; then
  for name in links.pcap addresses.pcapng; do check "times of $name" has_times_of_tshark "examples/$name"; done
fi
