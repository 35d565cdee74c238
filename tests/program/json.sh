# Cases of `--format json`, read in by ../program.sh.

# What is shown of a DONE, and of the loopback link: 0x00010049 is 65,609.
finish_message_json='{"message":3,"type":"done","flags":2,"flag_names":["MULTI"],"seq":1,"port":12345,"done":{"status":0,"tail":""}}'
finish_json='{"datagram":1,"bytes":20,"messages":['$finish_message_json']}'
loopback_body_json='"link":{"family":0,"type":772,"index":1,"flags":65609,"flag_names":["UP","LOOPBACK","RUNNING","LOWER_UP"],"change":0,"attrs":[{"number":3,"name":"IFNAME","flags":[],"form":"text","value":"lo"},{"number":4,"name":"MTU","flags":[],"form":"u32","value":65536}]}'
loopback_json='{"datagram":1,"bytes":48,"messages":[{"message":16,"type":"newlink","flags":2,"flag_names":["MULTI"],"seq":1,"port":12345,'$loopback_body_json'}]}'

# ---- show

expect 'JSON: a DONE' 0 "$finish_json" '' show --format json <<<"$finish"
expect 'JSON: a link' 0 "$loopback_json" '' show --format json <<<"$loopback"
expect 'JSON: FILE, order big' 0 "$loopback_json" '' show --order big --format=json - <<<"$loopback_big"
expect 'JSON: refused between two that are shown' 1 \
  "$finish_json"$'\n{"datagram":2,"refused":"bad length","at":32}\n{"datagram":3,"bytes":20,"messages":['"$finish_message_json"']}' \
  '' show --format json < <(printf '%s\n' "$finish" "$short_attribute" "$finish")
expect 'JSON: a datagram too large' 1 '{"datagram":1,"refused":"too large"}' '' show --format json < <(zeros 65537)
expect 'JSON: a route with two next hops' 0 '{"datagram":1,"bytes":64,"messages":[{"message":24,"type":"newroute","flags":2,"flag_names":["MULTI"],"seq":1,"port":12345,"route":{"family":2,"dst_len":0,"src_len":0,"tos":0,"table":254,"protocol":3,"scope":0,"type":1,"flags":0,"attrs":[{"number":9,"name":"MULTIPATH","flags":[],"form":"hops","items":[{"flags":0,"flag_names":[],"hops":0,"index":2,"attrs":[{"number":5,"name":"GATEWAY","flags":[],"form":"ipv4","value":"192.0.2.1"}]},{"flags":0,"flag_names":[],"hops":1,"index":3,"attrs":[{"number":5,"name":"GATEWAY","flags":[],"form":"ipv4","value":"192.0.2.2"}]}]}]}}]}' \
  '' show --format json <<<"$route"
# An attribute without a name, which holds one of no bytes.
expect 'JSON: a list, no name, no bytes' 0 '{"datagram":1,"bytes":40,"messages":[{"message":16,"type":"newlink","flags":0,"flag_names":[],"seq":0,"port":0,"link":{"family":0,"type":0,"index":-1,"flags":0,"flag_names":[],"change":4294967295,"attrs":[{"number":16383,"name":null,"flags":["nested"],"form":"list","items":[{"number":1,"name":null,"flags":["net"],"form":"hex","value":""}]}]}}]}' \
  '' show --format json \
  <<<'28000000 1000 0000 00000000 00000000 00000000 ffffffff 00000000 ffffffff 0800ffbf 04000140'
# The name is a"\ and a zero byte.
expect 'JSON: a quotation mark and a backslash' 0 '{"datagram":1,"bytes":40,"messages":[{"message":17,"type":"dellink","flags":0,"flag_names":[],"seq":0,"port":0,"link":{"family":0,"type":0,"index":0,"flags":0,"flag_names":[],"change":0,"attrs":[{"number":3,"name":"IFNAME","flags":[],"form":"text","value":"a\"\\"}]}}]}' \
  '' show --format json \
  <<<'28000000 1100 0000 00000000 00000000 00000000 00000000 00000000 00000000 08000300 61225c00'
expect 'JSON: a request' 0 '{"datagram":1,"bytes":17,"messages":[{"message":18,"type":"getlink","flags":769,"flag_names":["REQUEST","ROOT","MATCH"],"seq":1,"port":0,"get":{"family":0,"tail":""}}]}' \
  '' show --format json <<<"$short_get"
expect 'JSON: an ERROR' 0 '{"datagram":1,"bytes":36,"messages":[{"message":2,"type":"error","flags":0,"flag_names":[],"seq":1,"port":12345,"error":{"code":-1,"answers":{"len":32,"type":18,"flags":769,"seq":1,"port":0,"kind":"GETLINK"},"tail":""}}]}' \
  '' show --format json <<<"$refusal"
expect 'JSON: a type of no family' 0 '{"datagram":1,"bytes":18,"messages":[{"message":65535,"type":"other","flags":0,"flag_names":[],"seq":1,"port":12345,"bytes":"abcd"}]}' \
  '' show --format json <<<'12000000 ffff 0000 01000000 39300000 ABCD'

# ---- check

expect 'JSON of check: canonical, accepted, refused' 1 \
  $'{"datagram":1,"canonical":true}\n{"datagram":2,"canonical":false}\n{"datagram":3,"refused":"bad length","at":32}' \
  '' check --format json < <(printf '%s\n' "$finish" "$short_get" "$short_attribute")
expect 'JSON of check: a datagram too large' 1 '{"datagram":1,"refused":"too large"}' '' check --format json \
  < <(zeros 65540)
expect 'JSON of check: order big' 0 '{"datagram":1,"canonical":true}' '' check --format json --order big \
  <<<"$loopback_big"

# ---- table

links_json=("${links[@]}" --format json)
# 0x00011043 is 69,699.
ethernet_body_json='"link":{"family":0,"type":1,"index":2,"flags":69699,"flag_names":["UP","BROADCAST","RUNNING","MULTICAST","LOWER_UP"],"change":0,"attrs":[{"number":3,"name":"IFNAME","flags":[],"form":"text","value":"eth0"}]}'
expect 'JSON of table: two links' 0 '{"entry":1,'"$loopback_body_json"'}
{"entry":2,'"$ethernet_body_json"'}
{"dump":"link","seq":1,"port":12345,"end":"done","code":0,"entries":2,"missed":0,"ignored":0,"unfed":0,"damaged":false,"interrupted":false,"received":112,"visits":28,"complete":true}' \
  '' "${links_json[@]}" < <(printf '%s\n' "$loopback" "$ethernet $finish")
expect 'JSON of table: order big' 0 '{"entry":1,'"$loopback_body_json"'}
{"dump":"link","seq":1,"port":12345,"end":"done","code":0,"entries":1,"missed":0,"ignored":0,"unfed":0,"damaged":false,"interrupted":false,"received":68,"visits":16,"complete":true}' \
  '' "${links_json[@]}" --order big <<<"$loopback_big $finish_big"
expect 'JSON of table: refused, then taken' 1 '{"datagram":1,"refused":"cut","at":48}
{"entry":1,'"$loopback_body_json"'}
{"dump":"link","seq":1,"port":12345,"end":"done","code":0,"entries":1,"missed":0,"ignored":0,"unfed":0,"damaged":true,"interrupted":false,"received":126,"visits":32,"complete":false}' \
  '' "${links_json[@]}" < <(printf '%s\n' "$cut" "$loopback" "$finish")
expect 'JSON of table: a datagram too large, one ignored, one unfed, interrupted' 1 '{"datagram":2,"refused":"too large"}
{"dump":"link","seq":1,"port":12345,"end":"done","code":0,"entries":0,"missed":0,"ignored":1,"unfed":1,"damaged":true,"interrupted":true,"received":65596,"visits":0,"complete":false}' \
  '' "${links_json[@]}" < <(printf '%s\n' "$acknowledgement" "$(zeros 65540)" "${finish/0200/1200}" "$loopback")
expect 'JSON of table: one entry is missed' 1 '{"entry":1,'"$loopback_body_json"'}
{"dump":"link","seq":1,"port":12345,"end":"done","code":0,"entries":1,"missed":1,"ignored":0,"unfed":0,"damaged":false,"interrupted":false,"received":112,"visits":28,"complete":false}' \
  '' "${links_json[@]}" --entries 1 <<<"$loopback $ethernet $finish"
expect 'JSON of table: ended by ERROR' 1 '{"dump":"link","seq":1,"port":12345,"end":"error","code":-1,"entries":0,"missed":0,"ignored":0,"unfed":0,"damaged":false,"interrupted":false,"received":36,"visits":0,"complete":false}' \
  '' "${links_json[@]}" <<<"$refusal"
expect 'JSON of table: ended by OVERRUN' 1 '{"dump":"link","seq":1,"port":12345,"end":"overrun","entries":0,"missed":0,"ignored":0,"unfed":0,"damaged":false,"interrupted":false,"received":16,"visits":0,"complete":false}' \
  '' "${links_json[@]}" <<<'10000000 0400 0000 01000000 39300000'
expect 'JSON of table: empty input' 1 '{"dump":"link","seq":1,"port":12345,"end":"none","entries":0,"missed":0,"ignored":0,"unfed":0,"damaged":false,"interrupted":false,"received":0,"visits":0,"complete":false}' \
  '' "${links_json[@]}" </dev/null
expect 'JSON of table: a neighbour' 0 '{"entry":1,"neigh":{"family":10,"index":2,"state":2,"state_names":["REACHABLE"],"flags":128,"flag_names":["ROUTER"],"type":1,"attrs":[{"number":1,"name":"DST","flags":[],"form":"ipv6","value":"fe80:0000:0000:0000:0000:0000:0000:0001"},{"number":2,"name":"LLADDR","flags":[],"form":"hex","value":"020000000001","data":"02:00:00:00:00:01"}]}}
{"dump":"neigh","seq":1,"port":12345,"end":"done","code":0,"entries":1,"missed":0,"ignored":0,"unfed":0,"damaged":false,"interrupted":false,"received":80,"visits":32,"complete":true}' \
  '' table --kind neigh --seq 1 --port 12345 --format json <<<"$neighbour $finish"
expect 'JSON of table: a rule' 0 '{"entry":1,"rule":{"family":2,"dst_len":0,"src_len":0,"tos":0,"table":254,"action":1,"flags":0,"attrs":[{"number":15,"name":"TABLE","flags":[],"form":"u32","value":1000,"data":{"number":1000,"name":null}},{"number":6,"name":"PRIORITY","flags":[],"form":"u32","value":32766}]}}
{"dump":"rule","seq":1,"port":12345,"end":"done","code":0,"entries":1,"missed":0,"ignored":0,"unfed":0,"damaged":false,"interrupted":false,"received":64,"visits":16,"complete":true}' \
  '' table --kind rule --seq 1 --port 12345 --format json <<<"$rule $finish"
expect 'JSON of table: an address' 0 '{"entry":1,"addr":{"family":2,"prefix":8,"flags":128,"scope":254,"index":1,"attrs":[{"number":1,"name":"ADDRESS","flags":[],"form":"ipv4","value":"127.0.0.1"},{"number":2,"name":"LOCAL","flags":[],"form":"ipv4","value":"127.0.0.1"},{"number":3,"name":"LABEL","flags":[],"form":"text","value":"lo"}]}}
{"dump":"addr","seq":1,"port":12345,"end":"done","code":0,"entries":1,"missed":0,"ignored":0,"unfed":0,"damaged":false,"interrupted":false,"received":68,"visits":24,"complete":true}' \
  '' table --kind addr --seq 1 --port 12345 --format json <<<"$address $finish"

# ---- each command

for command in show check "${links[*]}"; do
  read -ra asked <<<"$command"
  expect "JSON, a bad line: $command" 1 '' 'rtnl: line 2: bad line' "${asked[@]}" --format json \
    < <(printf '%s\n' "$finish" 0g)
  expect "JSON, a missing file: $command" 3 '' "$(unread "$folder/missing" "$missing")" "${asked[@]}" --format json \
    "$folder/missing" </dev/null
  check "JSON, a full device: $command" ends 3 '' "$full_device" into_full_device "${asked[@]}" --format json \
    <<<"$finish"
  check "JSON, standard output closed: $command" ends 3 '' "$closed_output" into_closed_output "${asked[@]}" \
    --format json <<<"$finish"
  check "JSON, out of memory: $command" ends 4 '' 'rtnl: out of memory' in_little_memory "${asked[@]}" \
    --format json <"$folder/longest"
  for format in xml JSON '' jso; do usage "${asked[@]}" "--format=$format"; done
  usage "${asked[@]}" --format
  usage "${asked[@]}" --format text --format json
done
for command in show check; do
  expect "JSON, no datagram: $command" 0 '' '' "$command" --format json <<<'# note'
done
expect 'text by its name' 0 "$finish_text" '' show --format text <<<"$finish"
expect 'check, text by its name' 0 'datagram 1 canonical' '' check --format text <<<"$finish"
expect 'table, text by its name' 0 "$two_links" '' "${links[@]}" --format text "$folder/links" </dev/null
usage --format json
usage "${link_request[@]}" --format json
