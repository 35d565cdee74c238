# Reads and writes that a signal interrupts, read in by ../program.sh.

cc -shared -fPIC -O1 -o "$folder/interrupt.so" tests/program/interrupt.c || exit 1
interrupted() { LD_PRELOAD=$folder/interrupt.so "$program" "$@"; }

check 'interrupted, standard input' ends 0 "$finish_text" '' interrupted <<<"$finish"
check 'interrupted, FILE' ends 0 "$loopback_text" '' interrupted show "$folder/link"
check 'interrupted, many reads' ends 0 "$finish_text" '' interrupted <"$folder/longest"
check 'interrupted, a refused datagram, explained' ends 1 "$loopback_refused" \
  'rtnl: datagram 1: bad length at 0: a length counts its head, and is at most the bytes left: '\
'message 1 of type 4096 of length 805306368, 48 bytes left: [30]000000100002000100000039300000' \
  interrupted show --order big --explain "$folder/link"
check 'interrupted, followed' ends 1 "$loopback_text" "$(bad_line 1 "$folder/some_bad")" \
  interrupted follow "$folder/some_bad"
check 'interrupted, many reads that are followed' ends 0 "$finish_text" '' interrupted follow <"$folder/longest"
check 'interrupted, a table' ends 0 "$two_links" '' interrupted "${links[@]}" "$folder/links"
check 'interrupted, a table that the recording names' ends 0 "$one_link" '' \
  interrupted table --kind link "$folder/named"
check 'interrupted, a request' ends 0 "$link_bytes" '' interrupted "${link_request[@]}"
