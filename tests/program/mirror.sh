# Cases of `mirror`, read in by ../program.sh. What it prints of recordings that are made at random is compared in
# ../compare.py.

# told MESSAGE: the same as a notification: without NLM_F_MULTI, and of no dump's numbers. gone MESSAGE: as a
# deletion, whose type is one above. flagged FLAGS MESSAGE: with these flags.
told() { sed -E 's/^(\S+ \S+) \S+ \S+ \S+/\1 0000 00000000 00000000/' <<<"$1"; }
gone() {
  local words
  read -ra words < <(told "$1")
  printf -v 'words[1]' '%02x00' $((16#${words[1]:0:2} + 1))
  echo "${words[*]}"
}
flagged() { sed -E "s/^(\\S+ \\S+) \\S+/\\1 $1/" <<<"$2"; }
# done_of NUMBER: a DONE of the dump of this number.
done_of() { printf '14000000 0300 0200 %02x000000 39300000 00000000\n' "$1"; }
# begins KIND NUMBER: the line of a dump.
begins() { echo "# seq $2 port 12345 kind $1"; }

of_links=(mirror --kind link)
changed=("${of_links[@]}" --changes)
first=$(begins link 1)
told_loopback=$(told "$loopback")
told_later=$(told "$loopback_later")
told_ethernet=$(told "$ethernet")
gone_loopback=$(gone "$loopback")
number_refused='refused: its sequence number is not above those before'
check 'mirror: the notification' [ "$told_ethernet" = \
  '2c000000 1000 0000 00000000 00000000 00000100 02000000 43100100 00000000 09000300 65746830 00000000' ]
check 'mirror: the deletion' [ "$gone_loopback" = \
  '30000000 1100 0000 00000000 00000000 00000403 01000000 49000100 00000000 07000300 6c6f0000 08000400 00000100' ]

# ---- a dump alone: what `table` prints of its entries

dumped_links="table link
entry 1
$loopback_body
entry 2
$ethernet_body
entries 2 missed 0 current yes"
printf '%s\n' "$first" "$loopback" "$ethernet $finish" >"$folder/dumped"
expect 'mirror: a dump' 0 "$dumped_links" '' "${of_links[@]}" <"$folder/dumped"
expect 'mirror FILE' 0 "$dumped_links" '' "${of_links[@]}" "$folder/dumped" <<<"$finish"
expect 'mirror -' 0 "$dumped_links" '' "${of_links[@]}" - <"$folder/dumped"
expect 'mirror: options behind FILE' 0 "$dumped_links" '' mirror "$folder/dumped" --kind=link </dev/null
expect 'mirror: no newline at the end' 0 "$dumped_links" '' "${of_links[@]}" < <(printf %s "$(cat "$folder/dumped")")
expect 'mirror, order big' 0 "table link
entry 1
$loopback_body
entries 1 missed 0 current yes" '' "${of_links[@]}" --order big < <(printf '%s\n' "$first" "$loopback_big $finish_big")
expect 'mirror, JSON' 0 '{"entry":1,'"$loopback_body_json"'}
{"entry":2,'"$ethernet_body_json"'}
{"table":"link","entries":2,"missed":0,"current":true}' '' "${of_links[@]}" --format json "$folder/dumped"

# has_entries_of_table KIND FILE: of a recording of the kernel both print the same entries, and it is complete.
has_entries_of_table() {
  local numbers
  numbers=$("$program" show "$2" | sed -nE '2s/.* (seq [0-9]+ port [0-9]+)$/\1/p')
  # shellcheck disable=SC2086
  "$program" table --kind "$1" --${numbers/ port/ --port} "$2" | sed -n '/^entry /,/^end /p' | sed '$d' >"$folder/entries"
  [ -s "$folder/entries" ] && { echo "# $numbers kind $1" && cat "$2"; } >"$folder/asked" &&
    ends 0 "$any" '' "$program" mirror --kind "$1" "$folder/asked" &&
    sed '1d;$d' "$folder/output" | cmp -s - "$folder/entries" &&
    [ "$(tail -n 1 "$folder/output")" = "entries $(grep -c '^entry ' "$folder/entries") missed 0 current yes" ]
}
check 'mirror: links of a kernel' has_entries_of_table link examples/links.hex
check 'mirror: addresses' has_entries_of_table addr examples/addresses.hex
check 'mirror: routes' has_entries_of_table route examples/routes.hex
check 'mirror: neighbours' has_entries_of_table neigh examples/neighbours.hex
check 'mirror: rules' has_entries_of_table rule examples/rules.hex

# ---- all kinds

kinds=(link addr route neigh rule)
ends_of_all() { for at in 0 1 2 3 4; do begins "${kinds[at]}" $((at + 1)) && done_of $((at + 1)); done; }
all_tables=$(printf 'table %s\nentries 0 missed 0 current yes\n' "${kinds[@]}")
expect 'mirror: nothing' 1 "${all_tables//yes/no: never dumped}" '' mirror </dev/null
expect 'mirror: nothing, JSON' 1 \
  "$(printf '{"table":"%s","entries":0,"missed":0,"current":false,"stale":"never dumped"}\n' "${kinds[@]}")" '' \
  mirror --format json </dev/null
expect 'mirror: nothing, changes' 1 '' '' mirror --changes </dev/null
expect 'mirror: all kinds' 0 "$all_tables" '' mirror < <(ends_of_all)
expect 'mirror: all kinds, changes' 0 "$(printf '= %s 0\n' "${kinds[@]}")" '' mirror --changes < <(ends_of_all)
expect 'mirror: one of all kinds' 0 '= neigh 0' '' mirror --kind neigh --changes < <(ends_of_all)
expect 'mirror: all but one' 1 "${all_tables/yes/no: never dumped}" '' mirror < <(ends_of_all | tail -n +3)
expect 'mirror: one was dumped' 0 $'table rule\nentries 0 missed 0 current yes' '' mirror --kind rule \
  < <(printf '%s\n' "$(begins rule 1)" "$finish")
# A link that is up is of no other kind.
expect 'mirror: a notification of one kind' 0 "$(printf '= %s 0\n' "${kinds[@]}")
+ link 1
$loopback_body" '' mirror --changes < <(ends_of_all && echo "$told_loopback")
expect 'mirror: of another kind than is printed' 0 '= rule 0' '' mirror --kind rule --changes \
  < <(ends_of_all && echo "$told_loopback")

# ---- changes: each of the signs

signs=("$first" "$loopback $finish" "$told_ethernet" "$told_later" "$gone_loopback" '# dropped')
lost_here='rtnl: line 6: messages were dropped here'
expect 'mirror: changes' 1 "= link 1
entry 1
$loopback_body
+ link 2
$ethernet_body
~ link 1
$loopback_later_body
was
$loopback_body
- link 1
$loopback_later_body
? link lost" "$lost_here" "${changed[@]}" < <(printf '%s\n' "${signs[@]}")
loopback_link_json=${loopback_body_json#\"link\":}
expect 'mirror: changes, JSON' 1 '{"change":"=","table":"link","entries":1}
{"entry":1,'"$loopback_body_json"'}
{"change":"+","entry":2,'"$ethernet_body_json"'}
{"change":"~","entry":1,'"${loopback_body_json/65536/1500},\"before\":$loopback_link_json"'}
{"change":"-","entry":1,'"${loopback_body_json/65536/1500}"'}
{"change":"?","table":"link","stale":"lost"}' "$lost_here" "${changed[@]}" --format json < <(printf '%s\n' "${signs[@]}")
# The last entry has taken the place of the one that is gone.
expect 'mirror: the table of these changes' 1 "table link
entry 1
$ethernet_body
entries 1 missed 0 current no: lost" "$lost_here" "${of_links[@]}" < <(printf '%s\n' "${signs[@]}")
expect 'mirror: new and gone in one datagram' 0 "= link 0
+ link 1
$loopback_body
- link 1
$loopback_body" '' "${changed[@]}" < <(printf '%s\n' "$first" "$finish" "$told_loopback $gone_loopback")
expect 'mirror: gone and new in one datagram' 0 "= link 1
entry 1
$loopback_body
- link 1
$loopback_body
+ link 1
$ethernet_body
+ link 2
$loopback_later_body" '' "${changed[@]}" \
  < <(printf '%s\n' "$first" "$loopback $finish" "$gone_loopback $told_ethernet $told_later")
expect 'mirror: the same once more' 0 "= link 1
entry 1
$loopback_body
~ link 1
$loopback_body
was
$loopback_body" '' "${changed[@]}" < <(printf '%s\n' "$first" "$loopback $finish" "$told_loopback")
expect 'mirror: gone, and not held' 0 '= link 0' '' "${changed[@]}" < <(printf '%s\n' "$first" "$finish" "$gone_loopback")
expect 'mirror: before a dump' 1 "+ link 1
$loopback_body" '' "${changed[@]}" <<<"$told_loopback"
expect 'mirror: before a dump, the table' 1 "table link
entry 1
$loopback_body
entries 1 missed 0 current no: never dumped" '' "${of_links[@]}" <<<"$told_loopback"
expect 'mirror, order big, changes' 0 "= link 0
+ link 1
$loopback_body" '' "${changed[@]}" --order big \
  < <(printf '%s\n' "$first" "$finish_big" "$(sed 's/^00000030 0010 0002/00000030 0010 0000/' <<<"$loopback_big")")
expect 'mirror: parts of no dump' 0 '= link 0' '' "${changed[@]}" \
  < <(printf '%s\n' "$first" "$finish" "$loopback" "$finish")

# What ip(8) did while examples/mirror.hex was recorded: another MTU of d0, an address, for which the kernel makes three
# routes, a route, a neighbour and a rule; and the last three are taken away, the neighbour as failed first.
did=('= link 3' '= addr 1' '= route 3' '= neigh 0' '= rule 7' '~ link 3' '+ addr 2' '+ route 4' '+ route 5' '+ route 6'
  '+ route 7' '+ neigh 1' '+ rule 8' '- route 7' '~ neigh 1' '- neigh 1' '- rule 8')
tells_what_ip_did() {
  ends 0 "$any" '' "$program" mirror --changes examples/mirror.hex &&
    [ "$(grep -E '^[+~=?-] ' "$folder/output")" = "$(printf '%s\n' "${did[@]}")" ]
}
check 'mirror: a recording of a kernel' tells_what_ip_did

# ---- a dump amid notifications

amid=("$first" "$told_ethernet" "$loopback" "$gone_loopback" "$told_later" "$finish")
expect 'mirror: a dump amid notifications' 0 "= link 2
entry 1
$loopback_later_body
entry 2
$ethernet_body" '' "${changed[@]}" < <(printf '%s\n' "$first" "$loopback" "$told_ethernet" "$told_later" "$finish")
# What is gone takes its entry from the dump: the next one has its place.
expect 'mirror: gone amid a dump' 0 "= link 2
entry 1
$ethernet_body
entry 2
$loopback_later_body" '' "${changed[@]}" < <(printf '%s\n' "${amid[@]}")
expect 'mirror: a notification in the datagram of the end' 0 "+ link 2
$ethernet_body
= link 2
entry 1
$loopback_body
entry 2
$ethernet_body" '' "${changed[@]}" < <(printf '%s\n' "$first" "$loopback $finish $told_ethernet")
expect 'mirror: a dump in place of one' 0 "= link 1
entry 1
$ethernet_body" '' "${changed[@]}" \
  < <(printf '%s\n' "$first" "$loopback" "$(begins link 2)" "${ethernet/01000000/02000000} $(done_of 2)" "$finish")
expect 'mirror: a second dump' 0 "= link 1
entry 1
$loopback_body
= link 0" '' "${changed[@]}" < <(printf '%s\n' "$first" "$loopback $finish" "$(begins link 2)" "$(done_of 2)")
expect 'mirror: a dump without an end' 1 "table link
entries 0 missed 0 current no: never dumped" '' "${of_links[@]}" < <(printf '%s\n' "$first" "$loopback" "$told_ethernet")
expect 'mirror: interrupted' 1 $'= link 0\n? link never dumped' '' "${changed[@]}" \
  < <(printf '%s\n' "$first" "$loopback_interrupted" "$finish")
expect 'mirror: interrupted at its end' 1 $'= link 0\n? link never dumped' '' "${changed[@]}" \
  < <(printf '%s\n' "$first" "$loopback" "${finish/0200/1200}")
expect 'mirror: ended by an error' 1 $'= link 0\n? link never dumped' '' "${changed[@]}" \
  < <(printf '%s\n' "$first" "$loopback" "$refusal")
expect 'mirror: an acknowledgement ends nothing' 1 '' '' "${changed[@]}" < <(printf '%s\n' "$first" "$acknowledgement")

# ---- what is lost

again=("$(begins link 2)" "$(done_of 2)")
expect 'mirror: lost amid a dump' 1 $'= link 0\n? link never dumped' 'rtnl: line 2: messages were dropped here' \
  "${changed[@]}" < <(printf '%s\n' "$first" '# dropped: here' "$loopback $finish")
expect 'mirror: lost, and dumped again' 0 $'= link 0\n? link lost\n= link 0' \
  'rtnl: line 3: messages were dropped here' "${changed[@]}" < <(printf '%s\n' "$first" "$finish" '# dropped' "${again[@]}")
expect 'mirror: lost twice' 1 $'= link 0\n? link lost' \
  $'rtnl: line 3: messages were dropped here\nrtnl: line 4: messages were dropped here' \
  "${changed[@]}" < <(printf '%s\n' "$first" "$finish" $'# dropped\r' $'# dropped\t')
expect 'mirror: lost, of all kinds' 1 "$(printf '= %s 0\n' "${kinds[@]}" && printf '? %s lost\n' "${kinds[@]}")" \
  'rtnl: line 11: messages were dropped here' mirror --changes < <(ends_of_all && echo '# dropped')
expect 'mirror: no loss' 0 '= link 0' '' "${changed[@]}" < <(printf '%s\n' "$first" "$finish" '# droppeds' '#dropped')
overrun='10000000 0400 0000 00000000 00000000'
expect 'mirror: an overrun' 1 $'= link 0\n? link lost' '' "${changed[@]}" < <(printf '%s\n' "$first" "$finish" "$overrun")
expect 'mirror: an overrun of a dump' 1 $'= link 0\n= link 0\n? link lost' '' "${changed[@]}" \
  < <(printf '%s\n' "$first" "$finish" "$(begins link 2)" '10000000 0400 0000 02000000 39300000')
expect 'mirror: a refused datagram' 1 $'= link 0\ndatagram 2 refused bad length at 32\n? link refused' '' \
  "${changed[@]}" < <(printf '%s\n' "$first" "$finish" "$short_attribute")
expect 'mirror: a refused datagram, JSON' 1 '{"change":"=","table":"link","entries":0}
{"datagram":2,"refused":"bad length","at":32}
{"change":"?","table":"link","stale":"refused"}' '' "${changed[@]}" --format json \
  < <(printf '%s\n' "$first" "$finish" "$short_attribute")
expect 'mirror: refused, the table' 1 $'datagram 2 refused bad length at 32\ntable link\nentries 0 missed 0 current no: refused' \
  '' "${of_links[@]}" < <(printf '%s\n' "$first" "$finish" "$short_attribute")
expect 'mirror: refused, and dumped again' 1 $'datagram 2 refused bad length at 32\ntable link\nentries 0 missed 0 current yes' \
  '' "${of_links[@]}" < <(printf '%s\n' "$first" "$finish" "$short_attribute" "${again[@]}")
expect 'mirror: a datagram too large' 1 $'datagram 1 refused too large\ntable link\nentries 0 missed 0 current no: never dumped' \
  '' "${of_links[@]}" < <(zeros 65540)
expect 'mirror: a datagram too large, JSON' 1 '{"datagram":1,"refused":"too large"}
{"table":"link","entries":0,"missed":0,"current":false,"stale":"never dumped"}' '' "${of_links[@]}" --format json \
  < <(zeros 65540)
expect 'mirror: nothing of what is refused' 1 $'= link 0\ndatagram 2 refused cut at 48\n? link refused' '' "${changed[@]}" \
  < <(printf '%s\n' "$first" "$finish" "$told_loopback 14000000 0300 0200 0100")
expect 'mirror, depth 0' 1 $'datagram 1 refused too deep at 32\ntable link\nentries 0 missed 0 current no: never dumped' '' \
  "${of_links[@]}" --depth 0 <<<"$nine_lists"

# ---- numbers of dumps, and lines that begin none

expect 'mirror: the same number' 1 "= link 0
dump link seq 1 port 12345 $number_refused" '' "${changed[@]}" < <(printf '%s\n' "$first" "$finish" "$first")
expect 'mirror: the same number of another kind, another port' 1 "dump addr seq 1 port 7 $number_refused
table link
entries 0 missed 0 current yes" '' "${of_links[@]}" \
  < <(printf '%s\n' "$first" '# seq 1 port 7 kind addr' "$finish")
expect 'mirror: a number below, JSON' 1 '{"dump":"rule","seq":2,"port":0,"refused":"seq"}
{"table":"link","entries":0,"missed":0,"current":false,"stale":"never dumped"}' '' "${of_links[@]}" --format json \
  < <(printf '%s\n' '# seq 4294967295 port 4294967295 kind link' '# seq 2 port 0 kind rule')
expect 'mirror: blanks behind the kind' 0 '= link 0' '' "${changed[@]}" < <(printf '%s\n' "$first"$' \t\r' "$finish")
for line in '# seq 1 port 12345' '# seq 1 port 12345 kind links' '# seq +1 port 12345 kind link' \
  '# seq 4294967297 port 12345 kind link' '#seq 1 port 12345 kind link' '# seq 1 port 12345 kind link family 0' \
  ' # seq 1 port 12345 kind' '# port 12345 seq 1 kind link'; do
  [[ $line != ' '* ]] || continue
  expect "mirror: no dump: $line" 1 '' '' "${changed[@]}" < <(printf '%s\n' "$line" "$finish")
done

# ---- limits

full=$'entries 0 missed 1 current no: full'
expect 'mirror: no entry at most' 1 $'table link\n'"$full" '' "${of_links[@]}" --entries 0 \
  < <(printf '%s\n' "$first" "$loopback $finish")
expect 'mirror: no entry at most, changes' 1 $'= link 0\n? link full' '' "${changed[@]}" --entries 0 \
  < <(printf '%s\n' "$first" "$finish" "$told_loopback" "$told_loopback")
expect 'mirror: no entry at most, missed often' 1 $'table link\nentries 0 missed 3 current no: full' '' \
  "${of_links[@]}" --entries 0 < <(printf '%s\n' "$first" "$loopback $finish" "$told_loopback" "$told_ethernet")
expect 'mirror: one entry at most' 1 "= link 1
entry 1
$loopback_body
? link full" '' "${changed[@]}" --entries 1 < <(printf '%s\n' "$first" "$loopback $ethernet $finish")
expect 'mirror: full, and dumped again' 0 $'= link 0\n? link full\n= link 0' '' "${changed[@]}" --entries 0 \
  < <(printf '%s\n' "$first" "$finish" "$told_loopback" "${again[@]}")
expect 'mirror: no change may wait' 1 $'= link 0\n? link never dumped' '' "${changed[@]}" --waiting 0 \
  < <(printf '%s\n' "$first" "$told_loopback" "$finish")
expect 'mirror: no change may wait, of a current table' 1 $'= link 0\n? link waiting\n= link 0\n? link waiting' '' \
  "${changed[@]}" --waiting 0 < <(printf '%s\n' "$first" "$finish" "$(begins link 2)" "$told_loopback" "$(done_of 2)")
expect 'mirror: one change may wait' 1 "= link 1
entry 1
$loopback_body
? link never dumped" '' "${changed[@]}" --waiting 1 < <(printf '%s\n' "$first" "$told_loopback" "$told_ethernet" "$finish")
expect 'mirror: no change waits' 0 '= link 0' '' "${changed[@]}" --waiting 0 --entries 0 < <(printf '%s\n' "$first" "$finish")
expect 'mirror: the most' 0 "$dumped_links" '' "${of_links[@]}" --waiting 4294967295 --entries 65536 --depth 32 \
  "$folder/dumped"

# ---- address families, and what a bridge learns

# An address behind port 3, and behind port 4, of the bridge 5; and a neighbour of IPv4.
behind_3='30000000 1c00 0000 00000000 00000000 07000000 03000000 80000000 0a000200 02000000 00010000 08000900 05000000'
behind_4=${behind_3/03000000/04000000}
of_ipv4='24000000 1c00 0000 00000000 00000000 02000000 03000000 80000000 08000100 c0000201'
learnt='  neigh family 7 index 3 state 0x0080 PERMANENT flags 0x00 - type 0
    attr 2 LLADDR - hex 020000000001
    attr 9 MASTER - u32 5'
neighbour_of_ipv4='  neigh family 2 index 3 state 0x0080 PERMANENT flags 0x00 - type 0
    attr 1 DST - ipv4 192.0.2.1'
of_neighs=(mirror --kind neigh --changes)
neighs=("$(begins neigh 1)" "$finish" "$behind_3" "$of_ipv4" "$behind_4")
expect 'mirror: all families' 0 "= neigh 0
+ neigh 1
$neighbour_of_ipv4" '' "${of_neighs[@]}" < <(printf '%s\n' "${neighs[@]}")
expect 'mirror: a bridge' 0 "= neigh 0
+ neigh 1
$learnt
~ neigh 1
${learnt/index 3/index 4}
was
$learnt" '' "${of_neighs[@]}" --family 7 < <(printf '%s\n' "${neighs[@]}")
expect 'mirror: IPv4 alone' 0 "= neigh 0
+ neigh 1
$neighbour_of_ipv4" '' "${of_neighs[@]}" --family=2 < <(printf '%s\n' "${neighs[@]}")
expect 'mirror: another family' 0 '= neigh 0' '' "${of_neighs[@]}" --family 10 < <(printf '%s\n' "${neighs[@]}")
expect 'mirror: a bridge tells of its ports' 0 '= link 0' '' "${changed[@]}" \
  < <(printf '%s\n' "$first" "$finish" "${told_loopback/00000403/07000403}")

# ---- what leaves open which routes there are

route_of='24000000 1800 0000 00000000 00000000 02180000 fe030001 00000000 08000100 c6336400'
route_body='  route family 2 dst_len 24 src_len 0 tos 0 table 254 protocol 3 scope 0 type 1 flags 0x00000000
    attr 1 DST - ipv4 198.51.100.0'
of_routes=(mirror --kind route --changes)
routes_begin=("$(begins route 1)" "$finish")
# leaves_open NAME STATUS MORE MESSAGE: what follows the end of a dump by this message.
leaves_open() {
  expect "mirror: $1" "$2" "= route 0${3:+$'\n'}$3" '' "${of_routes[@]}" < <(printf '%s\n' "${routes_begin[@]}" "$4")
}
leaves_open 'a route' 0 $'+ route 1\n'"$route_body" "$route_of"
leaves_open 'a route that replaces' 1 $'+ route 1\n'"$route_body"$'\n? route unnamed' "$(flagged 0001 "$route_of")"
leaves_open 'a route that joins' 1 $'+ route 1\n'"$route_body"$'\n? route unnamed' "$(flagged 0008 "$route_of")"
leaves_open 'a route that answers a look-up' 0 '' "${route_of/00000000 08000100/00020000 08000100}"
leaves_open 'a route of IPv4 that is gone' 0 '' "$(gone "$route_of")"
leaves_open 'a route of IPv6 that is gone' 1 '? route unnamed' \
  '1c000000 1900 0000 00000000 00000000 0a000000 fe030001 00000000'
leaves_open 'a link that is up' 0 '' "$told_loopback"
leaves_open 'a link that is down' 1 '? route silent' "${told_loopback/49000100/48000100}"
leaves_open 'a link that is gone' 1 '? route silent' "$gone_loopback"
leaves_open 'an address of IPv4 that is gone' 1 '? route silent' \
  '18000000 1500 0000 00000000 00000000 02180000 02000000'
leaves_open 'an address of IPv6 that is gone' 0 '' '18000000 1500 0000 00000000 00000000 0a400000 02000000'
leaves_open 'an address of IPv4 that is new' 0 '' '18000000 1400 0000 00000000 00000000 02180000 02000000'
leaves_open 'a link that is down in a dump' 0 '' "${loopback/49000100/48000100}"

# ---- lines that are bad, and the options for them

bad_ones=('# note' 0g "$first" "$finish" 123 "$told_loopback")
expect 'mirror: bad lines' 1 "= link 0
+ link 1
$loopback_body" $'rtnl: line 2: bad line\nrtnl: line 5: bad line' "${changed[@]}" < <(printf '%s\n' "${bad_ones[@]}")
expect 'mirror, strictly' 1 $'table link\nentries 0 missed 0 current yes' 'rtnl: line 3: bad line' \
  "${of_links[@]}" --strict < <(printf '%s\n' "${bad_ones[@]:2}")
expect 'mirror, strictly, changes' 1 '= link 0' 'rtnl: line 3: bad line' \
  "${changed[@]}" --strict < <(printf '%s\n' "${bad_ones[@]:2}")
expect 'mirror, strictly, no bad line' 0 "$dumped_links" '' "${of_links[@]}" --strict "$folder/dumped"
expect 'mirror: a bad line alone' 1 $'table link\nentries 0 missed 0 current no: never dumped' "$bad_first_line" \
  "${of_links[@]}" <<<zz
printf '%s\n' zz "$first" "$finish $short_attribute" >"$folder/bad_mirror"
expect 'mirror, explained' 1 "datagram 1 refused bad length at 52
table link
entries 0 missed 0 current no: never dumped" "rtnl: line 1: bad line
rtnl: $folder/bad_mirror: line 1, column 1: byte 0x7a is no hexadecimal digit
rtnl: datagram 1: bad length at 52: a length counts its head, and is at most the bytes left: attribute 1 IFLA_ADDRESS at level 0 of length 3, 4 bytes left, in message 2 RTM_NEWLINK at 20: 0000000000000000[03]00010000000000" \
  "${of_links[@]}" --explain "$folder/bad_mirror"
expect 'mirror: a bad line of a FILE' 1 $'datagram 1 refused bad length at 52\ntable link\nentries 0 missed 0 current no: never dumped' \
  "$(bad_line 1 "$folder/bad_mirror")" "${of_links[@]}" "$folder/bad_mirror"

# ---- a pipe that stays open, and one that is long

check 'mirror: a change is told at once' tests/program/told.py soon "$program"
check 'mirror: a hundred thousand changes of one entry' tests/program/told.py grows "$program"
check 'mirror: a long recording in little memory' ends 0 "$dumped_links" '' in_little_memory "${of_links[@]}" \
  < <(yes '# a comment' | head -n 3000000 && cat "$folder/dumped")
check 'mirror: out of memory' ends 4 '= link 0' 'rtnl: out of memory' in_little_memory "${changed[@]}" \
  < <(printf '%s\n' "$first" "$finish" && comment 16777217)

# ---- what can't be read or written

expect 'mirror, a missing file' 3 '' "$(unread "$folder/missing" "$missing")" mirror "$folder/missing"
expect 'mirror, a missing file of an odd name' 3 '' "$(unread "x$shown_name" "$missing")" mirror "x$odd_name"
expect 'mirror, a folder as FILE' 3 '' "$(unread "$folder" "$is_folder")" mirror "$folder" <<<"$finish"
expect 'mirror, a folder as standard input' 3 '' "$(unread 'standard input' "$is_folder")" mirror <"$folder"
check 'mirror, standard input closed' ends 3 '' "$(unread 'standard input' "$closed")" from_closed_input mirror
check 'mirror, a full device' ends 3 '' "$full_device" into_full_device "${of_links[@]}" "$folder/dumped"
check 'mirror, a full device, changes' ends 3 '' "$full_device" into_full_device "${changed[@]}" --explain "$folder/dumped"
check 'mirror, standard output closed' ends 3 '' "$closed_output" into_closed_output "${changed[@]}" "$folder/dumped"
rm -f "$folder/pipe"
check 'mirror, a pipe that nobody reads' ends 3 '' "$no_reader" into_pipe_without_reader "${changed[@]}" "$folder/dumped"
check 'mirror, nothing for a full device' ends 1 '' '' into_full_device mirror --changes </dev/null
check 'mirror, a bad line that cannot be named' ends 1 $'table link\nentries 0 missed 0 current no: never dumped' '' \
  with_full_errors "${of_links[@]}" <<<zz

# ---- its arguments

expect 'help of mirror' 0 "$any" '' mirror --help <<<"$finish"
expect 'help of mirror, as a command' 0 "$any" '' help mirror <<<"$finish"
check 'help of mirror, a full device' ends 3 '' "$full_device" into_full_device mirror --help </dev/null
check 'the example of mirror' has_true_example mirror
usage mirror a b
usage mirror --seq 1
usage mirror --port 1
usage mirror --bytes
usage mirror --color always
usage mirror --version
for option in kind=links kind= family=256 family=-1 family=+1 depth=33 depth=-0 entries=65537 entries=-1 \
  waiting=4294967296 waiting=-1 waiting=+1 waiting= order=middle format=xml changes=yes strict=yes; do
  usage mirror "--$option"
done
usage mirror --waiting
usage mirror --kind link --kind addr
# No other command has its options.
for command in show check follow "${links[*]}"; do
  read -ra words <<<"$command"
  usage "${words[@]}" --changes
  usage "${words[@]}" --waiting 1
done
# Arguments are looked at before FILE is opened.
usage mirror --depth 33 "$folder/missing"
