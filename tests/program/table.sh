# Cases of `table`, read in by ../program.sh.

# A dump of links, and its parts.
links=(table --kind link --seq 1 --port 12345)
ethernet='2c000000 1000 0200 01000000 39300000 00000100 02000000 43100100 00000000 09000300 65746830 00000000'
finish_big='00000014 0003 0002 00000001 00003039 00000000'
loopback_body=$(tail -n +3 <<<"$loopback_text")
ethernet_body='  link family 0 type 1 index 2 flags 0x00011043 UP,BROADCAST,RUNNING,MULTICAST,LOWER_UP change 0x00000000
    attr 3 IFNAME - text eth0'
# The loopback link once more, with an MTU of 1,500; and the same as part of a dump that was interrupted.
loopback_later='30000000 1000 0200 01000000 39300000 00000403 01000000 49000100 00000000 07000300 6c6f0000 08000400 dc050000'
loopback_interrupted="${loopback_later/0200/1200}"
loopback_later_body="${loopback_body/65536/1500}"
# The loopback link, and a header that is cut behind its flags.
cut="$loopback 14000000 0300 0200 0100"
# An ERROR of code -1 and one of code 0, an acknowledgement, of a dump's request.
refusal='24000000 0200 0000 01000000 39300000 ffffffff 20000000 1200 0103 01000000 00000000'
acknowledgement='24000000 0200 0000 01000000 39300000 00000000 20000000 1200 0103 01000000 00000000'

two_links="dump link seq 1 port 12345
entry 1
$loopback_body
entry 2
$ethernet_body
end done 0
entries 2 missed 0 ignored 0 unfed 0 damaged no interrupted no
received 112 visits 28
complete yes"
expect 'table: two datagrams' 0 "$two_links" '' "${links[@]}" < <(printf '%s\n' "$loopback" "$ethernet $finish")
expect 'table: one datagram' 0 "$two_links" '' "${links[@]}" <<<"$loopback $ethernet $finish"
echo "$loopback $ethernet $finish" >"$folder/links"
expect 'table FILE' 0 "$two_links" '' "${links[@]}" "$folder/links" <<<"$finish"
expect 'table -' 0 "$two_links" '' "${links[@]}" - <"$folder/links"
expect 'table: options behind FILE' 0 "$two_links" '' \
  table "$folder/links" --port=12345 --seq=1 --kind=link </dev/null
expect 'table: limits that just do' 0 "$two_links" '' "${links[@]}" --depth 0 --entries 2 "$folder/links" </dev/null

one_link="dump link seq 1 port 12345
entry 1
$loopback_body
end done 0
entries 1 missed 0 ignored 0 unfed 0 damaged no interrupted no
received 68 visits 16
complete yes"
expect 'table, order little' 0 "$one_link" '' "${links[@]}" --order little <<<"$loopback $finish"
expect 'table, order big' 0 "$one_link" '' "${links[@]}" --order big <<<"$loopback_big $finish_big"
expect 'table, big numbers in the other order' 1 'dump link seq 1 port 12345
datagram 1 refused bad length at 0
datagram 2 refused bad length at 0
end none
entries 0 missed 0 ignored 0 unfed 0 damaged yes interrupted no
received 68 visits 0
complete no' '' "${links[@]}" < <(printf '%s\n' "$loopback_big" "$finish_big")

expect 'table: refused, then taken' 1 "dump link seq 1 port 12345
datagram 1 refused cut at 48
entry 1
$loopback_body
end done 0
entries 1 missed 0 ignored 0 unfed 0 damaged yes interrupted no
received 126 visits 32
complete no" '' "${links[@]}" < <(printf '%s\n' "$cut" "$loopback" "$finish")
expect 'table: refused alone' 1 'dump link seq 1 port 12345
datagram 1 refused cut at 48
end none
entries 0 missed 0 ignored 0 unfed 0 damaged yes interrupted no
received 58 visits 16
complete no' '' "${links[@]}" <<<"$cut"
expect 'table: a datagram too large' 1 'dump link seq 1 port 12345
datagram 2 refused too large
end done 0
entries 0 missed 0 ignored 1 unfed 0 damaged yes interrupted no
received 65596 visits 0
complete no' '' "${links[@]}" < <(printf '%s\n' "$acknowledgement" "$(zeros 65540)" "$finish")
expect 'table: unfed behind the end' 0 'dump link seq 1 port 12345
end done 0
entries 0 missed 0 ignored 0 unfed 1 damaged no interrupted no
received 20 visits 0
complete yes' '' "${links[@]}" < <(printf '%s\n' "$finish" "$loopback")
expect 'table: not looked at behind the end' 0 'dump link seq 1 port 12345
end done 0
entries 0 missed 0 ignored 0 unfed 3 damaged no interrupted no
received 20 visits 0
complete yes' '' "${links[@]}" < <(printf '%s\n' "$finish" "$short_attribute" 00 "$finish")
expect 'table: ignored behind the end in its datagram' 0 'dump link seq 1 port 12345
end done 0
entries 0 missed 0 ignored 1 unfed 0 damaged no interrupted no
received 68 visits 16
complete yes' '' "${links[@]}" <<<"$finish $loopback"

expect 'table: interrupted by an item' 1 "dump link seq 1 port 12345
entry 1
$loopback_later_body
entry 2
$ethernet_body
end done 0
entries 2 missed 0 ignored 0 unfed 0 damaged no interrupted yes
received 160 visits 44
complete no" '' "${links[@]}" <<<"$loopback $ethernet $loopback_interrupted $finish"
expect 'table: interrupted by the end' 1 'dump link seq 1 port 12345
end done 0
entries 0 missed 0 ignored 0 unfed 0 damaged no interrupted yes
received 20 visits 0
complete no' '' "${links[@]}" <<<"${finish/0200/1200}"
expect 'table: not interrupted by what is ignored' 0 'dump link seq 1 port 12345
end done 0
entries 0 missed 0 ignored 1 unfed 0 damaged no interrupted no
received 68 visits 16
complete yes' '' "${links[@]}" <<<"${loopback_interrupted/01000000/02000000} $finish"

three_messages="$loopback $ethernet $loopback_later $finish"
expect 'table of two entries, of which one came twice' 0 "dump link seq 1 port 12345
entry 1
$loopback_later_body
entry 2
$ethernet_body
end done 0
entries 2 missed 0 ignored 0 unfed 0 damaged no interrupted no
received 160 visits 44
complete yes" '' "${links[@]}" <<<"$three_messages"
full_table="dump link seq 1 port 12345
entry 1
$loopback_later_body
end done 0
entries 1 missed 1 ignored 0 unfed 0 damaged no interrupted no
received 160 visits 44
complete no"
expect 'table of one entry at most' 1 "$full_table" '' "${links[@]}" --entries 1 <<<"$three_messages"
expect 'table of no entry at most' 1 'dump link seq 1 port 12345
end done 0
entries 0 missed 3 ignored 0 unfed 0 damaged no interrupted no
received 160 visits 44
complete no' '' "${links[@]}" --entries 0 <<<"$three_messages"

# many_links COUNT: links of 32 bytes with the indices from 1 on, each a datagram; and what is printed of the first
# 4,096.
many_links() {
  awk -v count="$1" 'BEGIN { for (i = 1; i <= count; i++) printf \
    "20000000 1000 0200 01000000 39300000 00000000 %02x%02x%02x00 00000000 00000000\n", i % 256, i / 256 % 256, i / 65536 }'
}
most_entries() {
  awk 'BEGIN { for (i = 1; i <= 4096; i++)
    printf "entry %d\n  link family 0 type 0 index %d flags 0x00000000 - change 0x00000000\n", i, i }'
}
expect 'table: the standard number of entries' 1 "dump link seq 1 port 12345
$(most_entries)
end done 0
entries 4096 missed 1 ignored 0 unfed 0 damaged no interrupted no
received 131124 visits 0
complete no" '' "${links[@]}" < <(many_links 4097 && echo "$finish")

expect 'table: ended by DONE with a status' 1 'dump link seq 1 port 12345
end done -16
entries 0 missed 0 ignored 0 unfed 0 damaged no interrupted no
received 20 visits 0
complete no' '' "${links[@]}" <<<'14000000 0300 0200 01000000 39300000 f0ffffff'
expect 'table: ended by DONE without a status' 0 'dump link seq 1 port 12345
end done 0
entries 0 missed 0 ignored 0 unfed 0 damaged no interrupted no
received 16 visits 0
complete yes' '' "${links[@]}" <<<'10000000 0300 0200 01000000 39300000'
expect 'table: ended by ERROR' 1 'dump link seq 1 port 12345
end error -1
entries 0 missed 0 ignored 0 unfed 1 damaged no interrupted no
received 36 visits 0
complete no' '' "${links[@]}" < <(printf '%s\n' "$refusal" "$finish")
expect 'table: ended by OVERRUN' 1 'dump link seq 1 port 12345
end overrun
entries 0 missed 0 ignored 0 unfed 0 damaged no interrupted no
received 16 visits 0
complete no' '' "${links[@]}" <<<'10000000 0400 0000 01000000 39300000'
expect 'table: not ended by an acknowledgement' 1 'dump link seq 1 port 12345
end none
entries 0 missed 0 ignored 1 unfed 0 damaged no interrupted no
received 36 visits 0
complete no' '' "${links[@]}" <<<"$acknowledgement"
expect 'table: not ended by an ERROR that is too short' 1 'dump link seq 1 port 12345
datagram 1 refused short body at 0
end none
entries 0 missed 0 ignored 0 unfed 0 damaged yes interrupted no
received 16 visits 0
complete no' '' "${links[@]}" <<<'10000000 0200 0000 01000000 39300000'
nothing='dump link seq 1 port 12345
end none
entries 0 missed 0 ignored 0 unfed 0 damaged no interrupted no
received 0 visits 0
complete no'
expect 'table: empty input' 1 "$nothing" '' "${links[@]}" </dev/null
expect 'table: comments alone' 1 "$nothing" '' "${links[@]}" <<<'# note'

expect 'table: another port' 1 'dump link seq 1 port 1
end none
entries 0 missed 0 ignored 2 unfed 0 damaged no interrupted no
received 68 visits 16
complete no' '' table --kind link --seq 1 --port 1 < <(printf '%s\n' "$loopback" "$finish")
expect 'table: links of another sequence number, of another port, of neither' 0 'dump link seq 1 port 12345
end done 0
entries 0 missed 0 ignored 3 unfed 0 damaged no interrupted no
received 164 visits 48
complete yes' '' "${links[@]}" < <(printf '%s\n' "${loopback/01000000/02000000}" "${loopback/39300000/01000000}" \
  "${loopback/01000000 39300000/00000000 00000000}" "$finish")
expect 'table: a link that was deleted' 0 'dump link seq 1 port 12345
end done 0
entries 0 missed 0 ignored 1 unfed 0 damaged no interrupted no
received 68 visits 16
complete yes' '' "${links[@]}" <<<"${loopback/1000/1100} $finish"

# Of which kind the answers are, where the table has none of its kind.
no_addrs='dump addr seq 1 port 12345
end done 0
entries 0 missed 0 ignored 1 unfed 0 damaged no interrupted no
received 68 visits 16
complete yes'
other_kind='rtnl: ignored 1: the answers with seq 1 port 12345 are of kind link'
addrs=(table --kind addr --seq 1 --port 12345)
expect 'table of another kind' 0 "$no_addrs" "$other_kind" "${addrs[@]}" <<<"$loopback $finish"
expect 'table of another kind, explained' 0 "$no_addrs" "$other_kind" "${addrs[@]}" --explain \
  <<<"$loopback $finish"
expect 'table of another kind, FILE, in JSON' 0 "$any" "$other_kind" "${addrs[@]}" --format json \
  < <(printf '%s\n' '# note' "$loopback" "$finish")
expect 'table of another kind, order big' 0 "$no_addrs" "$other_kind" "${addrs[@]}" --order big \
  <<<"$loopback_big $finish_big"
expect 'table of another kind, a refused datagram before' 1 "$any" \
  'rtnl: ignored 2: the answers with seq 1 port 12345 are of kind link' "${addrs[@]}" \
  < <(printf '%s\n' "$cut" "$loopback" "$ethernet" "$finish")
# A link and a rule; an address would be kept.
rule_answer='1c000000 2000 0200 01000000 39300000 02000000 fe000001 00000000'
expect 'table of two other kinds' 0 "$any" \
  'rtnl: ignored 2: the first answer with seq 1 port 12345 is of kind link' "${addrs[@]}" \
  <<<"$loopback $rule_answer $finish"
expect 'table of its kind, another before' 0 "$any" '' "${links[@]}" \
  < <(printf '%s\n' "$rule_answer" "$loopback" "$finish")
# Nothing is said of what is deleted, of other numbers, of what was missed, and behind the end.
expect 'table of deletions of another kind' 0 "$any" '' "${addrs[@]}" \
  <<<"${loopback/ 1000 / 1100 } $finish"
expect 'table of another kind, with other numbers' 0 "$any" '' "${addrs[@]}" \
  <<<"${loopback/01000000/02000000} $finish"
expect 'table of another kind behind the end' 0 "$any" '' "${addrs[@]}" \
  < <(printf '%s\n' "$finish" "$loopback")
expect 'table of its kind, all missed, another before' 1 "$any" '' "${links[@]}" --entries 0 \
  <<<"$rule_answer $loopback $finish"
expect 'table: the greatest numbers' 0 'dump link seq 4294967295 port 4294967295
end done 0
entries 0 missed 0 ignored 0 unfed 0 damaged no interrupted no
received 20 visits 0
complete yes' '' table --kind link --seq 4294967295 --port 4294967295 --family 255 --depth 32 --entries 65536 \
  <<<'14000000 0300 0200 ffffffff ffffffff 00000000'
expect 'table: the least numbers' 0 'dump link seq 0 port 0
end done 0
entries 0 missed 0 ignored 0 unfed 0 damaged no interrupted no
received 20 visits 0
complete yes' '' table --kind link --seq 0 --port 0 --family 0 --depth 0 --entries 0 \
  <<<'14000000 0300 0200 00000000 00000000 00000000'

neighbour='3c000000 1c00 0200 01000000 39300000 0a000000 02000000 02008001 14000100 fe800000 00000000 00000000 00000001 0a000200 02000000 00010000'
expect 'table of neighbours' 0 'dump neigh seq 1 port 12345
entry 1
  neigh family 10 index 2 state 0x0002 REACHABLE flags 0x80 ROUTER type 1
    attr 1 DST - ipv6 fe80:0000:0000:0000:0000:0000:0000:0001
    attr 2 LLADDR - hex 020000000001
end done 0
entries 1 missed 0 ignored 0 unfed 0 damaged no interrupted no
received 80 visits 32
complete yes' '' table --kind neigh --seq 1 --port 12345 <<<"$neighbour $finish"

rule='2c000000 2000 0200 01000000 39300000 02000000 fe000001 00000000 08000f00 e8030000 08000600 fe7f0000'
expect 'table of rules' 0 'dump rule seq 1 port 12345
entry 1
  rule family 2 dst_len 0 src_len 0 tos 0 table 254 action 1 flags 0x00000000
    attr 15 TABLE - u32 1000
    attr 6 PRIORITY - u32 32766
end done 0
entries 1 missed 0 ignored 1 unfed 0 damaged no interrupted no
received 112 visits 32
complete yes' '' table --kind rule --seq 1 --port 12345 < <(printf '%s\n' "$loopback" "$rule" "$finish")
expect 'rules that a mask alone tells apart' 0 'dump rule seq 1 port 12345
entry 1
  rule family 2 dst_len 0 src_len 0 tos 0 table 254 action 1 flags 0x00000000
    attr 16 FWMASK - u32 255
entry 2
  rule family 2 dst_len 0 src_len 0 tos 0 table 254 action 1 flags 0x00000000
    attr 16 FWMASK - u32 15
end done 0
entries 2 missed 0 ignored 0 unfed 0 damaged no interrupted no
received 92 visits 16
complete yes' '' table --kind rule --seq 1 --port 12345 < <(printf '%s\n' \
  '24000000 2000 0200 01000000 39300000 02000000 fe000001 00000000 08001000 ff000000' \
  '24000000 2000 0200 01000000 39300000 02000000 fe000001 00000000 08001000 0f000000' "$finish")

address='30000000 1400 0200 01000000 39300000 020880fe 01000000 08000100 7f000001 08000200 7f000001 07000300 6c6f0000'
addresses='dump addr seq 1 port 12345
entry 1
  addr family 2 prefix 8 flags 0x80 scope 254 index 1
    attr 1 ADDRESS - ipv4 127.0.0.1
    attr 2 LOCAL - ipv4 127.0.0.1
    attr 3 LABEL - text lo
end done 0
entries 1 missed 0 ignored 0 unfed 0 damaged no interrupted no
received 68 visits 24
complete yes'
expect 'table of addresses' 0 "$addresses" '' table --kind addr --seq 1 --port 12345 <<<"$address $finish"
expect 'table of addresses, of which another family was asked for' 0 "$addresses" '' \
  table --kind addr --seq 1 --port 12345 --family 10 <<<"$address $finish"

routes=(table --kind route --seq 1 --port 12345)
route='40000000 1800 0200 01000000 39300000 02000000 fe030001 00000000 24000900 10000000 02000000 08000500 c0000201 10000001 03000000 08000500 c0000202'
route_table='dump route seq 1 port 12345
entry 1
  route family 2 dst_len 0 src_len 0 tos 0 table 254 protocol 3 scope 0 type 1 flags 0x00000000
    attr 9 MULTIPATH - hops 2
      hop flags 0x00 - hops 0 index 2
        attr 5 GATEWAY - ipv4 192.0.2.1
      hop flags 0x00 - hops 1 index 3
        attr 5 GATEWAY - ipv4 192.0.2.2
end done 0
entries 1 missed 0 ignored 0 unfed 0 damaged no interrupted no
received 84 visits 84
complete yes'
expect 'table of routes' 0 "$route_table" '' "${routes[@]}" <<<"$route $finish"
expect 'table of routes, depth 2' 0 "$route_table" '' "${routes[@]}" --depth 2 <<<"$route $finish"
expect 'table of routes, depth 1' 1 'dump route seq 1 port 12345
datagram 1 refused too deep at 28
end done 0
entries 0 missed 0 ignored 0 unfed 0 damaged yes interrupted no
received 84 visits 36
complete no' '' "${routes[@]}" --depth 1 < <(printf '%s\n' "$route" "$finish")
# The nine lists have 36, 32 and so on down to 4 bytes, each of which is a visit.
expect 'table, the standard depth' 1 'dump link seq 1 port 12345
datagram 1 refused too deep at 64
end done 0
entries 0 missed 0 ignored 0 unfed 0 damaged yes interrupted no
received 88 visits 180
complete no' '' "${links[@]}" < <(printf '%s\n' "$nine_lists" "$finish")
expect 'table, depth 9' 0 'dump link seq 1 port 12345
entry 1
  link family 0 type 0 index 0 flags 0x00000000 - change 0x00000000
    attr 1 ADDRESS nested list 1
      attr 1 - nested list 1
        attr 1 - nested list 1
          attr 1 - nested list 1
            attr 1 - nested list 1
              attr 1 - nested list 1
                attr 1 - nested list 1
                  attr 1 - nested list 1
                    attr 1 - nested list 0
end done 0
entries 1 missed 0 ignored 0 unfed 0 damaged no interrupted no
received 88 visits 180
complete yes' '' "${links[@]}" --depth 9 < <(printf '%s\n' "$nine_lists" "$finish")

# is_tabled FILE KIND SEQ PORT COUNT: the recording is a complete dump of so many entries, no two with one key,
# each of which is printed as `show` prints it.
is_tabled() {
  ends 0 "$any" '' "$program" table --kind "$2" --seq "$3" --port "$4" "$1" &&
    [ "$(grep -c '^entry ' "$folder/output")" = "$5" ] &&
    [ "$(grep '^  ' "$folder/output")" = "$("$program" show "$1" | grep '^  ' | grep -v '^  done ')" ]
}
check 'table of a recording of links' is_tabled examples/links.hex link 1 19050 1
check 'table of a recording of addresses' is_tabled examples/addresses.hex addr 4294967295 19247 23
check 'table of a recording of routes' is_tabled examples/routes.hex route 1011 19261 37
check 'table of a recording of rules' is_tabled examples/rules.hex rule 1021 6357 55

expect 'table: a bad line behind the end' 1 '' 'rtnl: line 2: bad line' "${links[@]}" \
  < <(printf '%s\n' "$loopback $finish" zz)
expect 'table: a missing file' 3 '' "$(unread "$folder/missing" "$missing")" "${links[@]}" "$folder/missing" <<<"$finish"
expect 'table: a folder as FILE' 3 '' "$(unread "$folder" "$is_folder")" "${links[@]}" "$folder" <<<"$finish"
expect 'table: an input too long' 3 '' "$(too_long 'standard input')" "${links[@]}" <"$folder/too_long"
check 'table: out of memory' ends 4 '' 'rtnl: out of memory' in_little_memory "${links[@]}" <"$folder/longest"
check 'table: standard input closed' ends 3 '' "$(unread 'standard input' "$closed")" from_closed_input "${links[@]}"
check 'table: a full device' ends 3 '' "$full_device" into_full_device "${links[@]}" <<<"$finish"
check 'table: a full device, empty input' ends 3 '' "$full_device" into_full_device "${links[@]}" </dev/null
check 'table: standard output closed' ends 3 '' "$closed_output" into_closed_output "${links[@]}" <<<"$finish"

# ---- the dump, which the recording names

# unnamed NAME FIRST ARGUMENT..: these arguments are a usage error whose text begins with this line.
unnamed() {
  local name=$1 first=$2
  shift 2
  check "table: $name" begins_usage "$first" "$@"
}
begins_usage() {
  local first=$1
  shift
  ends 2 '' "$any" "$program" "$@" && [ "$(head -n 1 "$folder/errors")" = "error: $first" ]
}
both_ways='needed, or a line `# seq N port N` in the recording'
here='# seq 1 port 12345'

printf '%s\n' "$here" "$loopback $finish" >"$folder/named"
expect 'table: numbers of the recording' 0 "$one_link" '' table --kind link <"$folder/named"
expect 'table: numbers of FILE' 0 "$one_link" '' table "$folder/named" --kind link </dev/null
expect 'table: numbers of a FILE that can be read only once' 0 "$one_link" '' table --kind link \
  <(cat "$folder/named") </dev/null
expect 'table: numbers of the recording, explained' 0 "$one_link" '' table --kind link --explain - <"$folder/named"
expect 'table: numbers of the recording, order big' 0 "$one_link" '' table --kind link --order big \
  < <(printf '%s\n' "$here" "$loopback_big $finish_big")
expect 'table: the greatest numbers of a recording' 0 'dump link seq 4294967295 port 4294967295
end done 0
entries 0 missed 0 ignored 0 unfed 0 damaged no interrupted no
received 20 visits 0
complete yes' '' table --kind link \
  < <(printf '%s\n' '# seq 4294967295 port 4294967295' '14000000 0300 0200 ffffffff ffffffff 00000000')
expect 'table: numbers with leading zeros, blanks behind them' 0 "$one_link" '' table --kind link \
  < <(printf '# seq 0001 port 00012345 \t\r\n%s\n' "$loopback $finish")
expect 'table: numbers on the last line, which no newline ends' 0 "$one_link" '' table --kind link \
  < <(printf '%s\n%s' "$loopback $finish" "$here")
# The first line that has both numbers, in just this form.
expect 'table: numbers behind lines that are none' 0 "$one_link" '' table --kind link < <(printf '%s\n' '# note' '#' \
  '# seq 9' '# seq 9 port' '# seq port' '# seq 9 port 9 9' '#seq 9 port 9' '#  seq 9 port 9' '# seq  9 port 9' \
  '# SEQ 9 PORT 9' '# seq +9 port 9' '# seq 9 port -0' '# seq -0 port 9' '# seq 4294967296 port 9' '# seq 0x9 port 9' \
  '# seq 9 port 9.' '## seq 9 port 9' $'# seq 9 port 9\xff' "$here" "$loopback $finish")
printf '%s\n' "$here" "$loopback $finish" '# seq 2 port 7' \
  "${loopback_later/01000000 39300000/02000000 07000000} ${finish/01000000 39300000/02000000 07000000}" >"$folder/two"
expect 'table: numbers of the first of two dumps' 0 "${one_link/unfed 0/unfed 1}" '' table --kind link "$folder/two"
expect 'table: numbers of the second of two dumps' 0 "dump link seq 2 port 7
entry 1
$loopback_later_body
end done 0
entries 1 missed 0 ignored 2 unfed 0 damaged no interrupted no
received 136 visits 32
complete yes" '' table --kind link --seq 2 --port 7 "$folder/two"
expect 'table: a sequence number beside the port of the recording' 0 'dump link seq 2 port 12345
end done 0
entries 0 missed 0 ignored 0 unfed 0 damaged no interrupted no
received 20 visits 0
complete yes' '' table --kind link --seq 2 < <(printf '%s\n' "$here" "${finish/01000000/02000000}")
expect 'table: a port beside the sequence number of the recording' 0 "$one_link" '' table --kind link --port 12345 \
  < <(printf '%s\n' '# seq 1 port 7' "$loopback $finish")
expect 'table: numbers given, others in the recording' 0 "$one_link" '' "${links[@]}" \
  < <(printf '%s\n' '# seq 9 port 9' "$loopback $finish")
expect 'table: numbers named, a bad line' 1 '' 'rtnl: line 2: bad line' table --kind link < <(printf '%s\n' "$here" zz)
expect 'table: numbers named, an input too long' 3 '' "$(too_long 'standard input')" table --kind link \
  < <(echo "$here" && cat "$folder/longest")
expect 'table: numbers named, a full table' 1 "$any" 'rtnl: missed 1: the limit is 0 entries; --entries sets another, up to 65536' \
  table --kind link --entries 0 --explain "$folder/named"
check 'table: numbers named, a full device' ends 3 '' "$full_device" into_full_device table --kind link "$folder/named"
expect 'table: no numbers, a folder as FILE' 3 '' "$(unread "$folder" "$is_folder")" table --kind link "$folder" <<<"$finish"
check 'table: no numbers, standard input closed' ends 3 '' "$(unread 'standard input' "$closed")" from_closed_input table --kind link

# Its kind too, where the line says it. Options win.
with_kind="$here kind link"
all_ways='needed, or a line `# seq N port N kind KIND` in the recording'
printf '%s\n' "$with_kind" "$loopback $finish" >"$folder/of_kind"
expect 'table FILE alone' 0 "$one_link" '' table "$folder/of_kind" </dev/null
expect 'table alone' 0 "$one_link" '' table <"$folder/of_kind"
expect 'table alone, explained' 0 "$one_link" '' table --explain "$folder/of_kind"
expect 'table alone, in JSON' 0 "$any" '' table --format json "$folder/of_kind"
expect 'table: a kind, blanks behind it' 0 "$one_link" '' table \
  < <(printf '%s \t\r\n%s' "$with_kind" "$loopback $finish")
for kind in link addr route neigh rule; do
  expect "table: kind $kind of the recording" 0 "dump $kind seq 1 port 12345
end done 0
entries 0 missed 0 ignored 0 unfed 0 damaged no interrupted no
received 20 visits 0
complete yes" '' table < <(printf '%s\n' "$here kind $kind" "$finish")
done
expect 'table: a kind given, another in the recording' 0 "$no_addrs" "$other_kind" table --kind addr \
  "$folder/of_kind"
expect 'table: numbers given, a kind in the recording' 0 "$one_link" '' table --seq 1 --port 12345 \
  < <(printf '%s\n' '# seq 9 port 9 kind link' "$loopback $finish")
expect 'table: a port given, the rest in the recording' 0 "$one_link" '' table --port 12345 \
  < <(printf '%s\n' '# seq 1 port 9 kind link' "$loopback $finish")
expect 'table: a kind given, numbers beside a kind' 0 "$one_link" '' table --kind link "$folder/of_kind"
expect 'table: a kind behind lines that are none' 0 "$one_link" '' table < <(printf '%s\n' \
  '# seq 9 port 9 kind' '# seq 9 port 9 kind ' '# seq 9 port 9 kind links' '# seq 9 port 9 kind LINK' \
  '# seq 9 port 9  kind addr' '# seq 9 port 9 kind  addr' '# seq 9 port 9 kind addr addr' \
  '# seq 9 port 9 kind addr kind addr' '# kind addr seq 9 port 9' '# seq 9 kind addr port 9' \
  '# seq 9 port 9 Kind addr' '# seq 9 port 9 addr' "$with_kind" "$loopback $finish")
unnamed 'no kind, and none on the first line' "--kind is $all_ways; $folder/named has none" table \
  "$folder/named"
unnamed 'no kind on the first line of two' "--kind is $all_ways; standard input has none" table \
  < <(printf '%s\n' "$here" "$with_kind" "$finish")
unnamed 'no kind, numbers given' "--kind is $all_ways; standard input has none" \
  table --seq 1 --port 12345 <<<"$finish"
unnamed 'no kind and no port' "--kind and --port are $all_ways; standard input has none" \
  table --seq 1 <<<"$finish"
unnamed 'no kind and no sequence number' "--kind and --seq are $all_ways; standard input has none" \
  table --port 1 <<<"$finish"
unnamed 'nothing' "--kind, --seq and --port are $all_ways; standard input has none" table <<<"$finish"
unnamed 'nothing, a missing file' "--kind, --seq and --port are $all_ways; $folder/missing cannot be opened: $missing" \
  table "$folder/missing"

unnamed 'no numbers' "--seq and --port are $both_ways; standard input has none" table --kind link <<<"$finish"
unnamed 'no numbers, empty input' "--seq and --port are $both_ways; standard input has none" table --kind link </dev/null
unnamed 'no numbers, FILE' "--seq and --port are $both_ways; $folder/link has none" table --kind link "$folder/link"
unnamed 'no sequence number' "--seq is $both_ways; standard input has none" table --kind link --port 12345 <<<"$finish"
unnamed 'no port' "--port is $both_ways; $folder/link has none" table --kind link --seq 1 "$folder/link"
unnamed 'numbers behind a byte order mark' "--seq and --port are $both_ways; standard input has none" \
  table --kind link < <(printf '\xef\xbb\xbf' && cat "$folder/named")
unnamed 'no numbers, a missing file' \
  "--seq and --port are $both_ways; $folder/missing cannot be opened: No such file or directory (os error 2)" \
  table --kind link "$folder/missing"
unnamed 'no port, a missing file' \
  "--port is $both_ways; $folder/a\\nb cannot be opened: No such file or directory (os error 2)" \
  table --kind link --seq 1 "$folder/"$'a\nb'

expect 'help of table' 0 "$any" '' table --help <<<"$finish"
usage table
usage table --seq 1 --port 12345
usage table --kind link --port 12345
usage table --kind link --seq 1
usage --kind link --seq 1 --port 12345
for kind in links LINK '' lin; do usage table --kind "$kind" --seq 1 --port 12345; done
for number in 4294967296 -1 0x1 1.0 '' one ' 1' +1 -0 +0 -00; do
  usage table --kind link --port 12345 --seq "$number"
  usage table --kind link --port 12345 "--seq=$number"
  usage table --kind link --seq 1 "--port=$number"
done
for option in family depth entries; do
  for number in +1 -0 +0 -00; do usage "${links[@]}" "--$option=$number"; done
done
unnamed 'a number with a sign' "invalid value '+1' for '--seq <N>': a number is digits alone" \
  table --kind link --seq +1 --port 12345 </dev/null
for option in family=256 family=-1 family=0x2 depth=33 depth=-1 depth=256 entries=65537 entries=-1 entries=4294967296 \
  order=middle limit=3; do usage "${links[@]}" "--$option"; done
usage "${links[@]}" --seq 2
usage "${links[@]}" --depth
usage "${links[@]}" "$folder/link" "$folder/links"
usage "${links[@]}" --depth 33 "$folder/missing"

# ---- time

check 'table: keys that were chosen to collide' tests/program/colliding.py "$program"
