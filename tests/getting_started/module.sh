# What the module of jq gives, as it is installed, of the lines in ../data/lines_of_json, of recordings and of others.

# asks COMMAND PROGRAM TEXT: what jq prints of the lines of this command; of show without those behind the sixteenth,
# which have payloads of many links.
asks() {
  local count=999
  [ "$1" != show ] || count=16
  head -n "$count" "tests/data/lines_of_json/$1.jsonl" >"$folder/lines"
  ends 0 "$3" '' jq -L "$prefix/share/rtnl" -c "include \"rtnl\"; $2" "$folder/lines"
}

# gives PROGRAM TEXT: what jq prints of nothing.
gives() { ends 0 "$2" '' jq -L "$prefix/share/rtnl" -nc "include \"rtnl\"; $1"; }

# stops INPUT: this has no attributes to be asked for, which is an error.
stops() {
  ends 5 '' 'jq: error (at <unknown>): MTU is asked of what has no attributes' \
    jq -L "$prefix/share/rtnl" -n "include \"rtnl\"; $1 | attr(\"MTU\")"
}

# Two attributes of a name, and two lists of one, where the first lacks what is in the second.
body='{attrs: [
  {number: 1, name: "A", value: 0}, {number: 1, name: "A", value: 2},
  {number: 2, name: "B", items: [{number: 3, name: null, value: ""}]},
  {number: 2, name: "B", items: [
    {number: 1, name: null, value: 3}, {number: 1, name: null, value: 4}]}]}'

# What a payload means, by attributes: a name twice, one without a name, a struct, and lists without names.
meaning='{attrs: [{number: 1, name: "A", value: "00", data: {number: 6, name: "UP"}}, {number: 2, name: "L", data: [
  {number: 1, name: "B", data: 7}, {number: 1, name: "B", data: 8}, {number: 9, name: null, value: "ff"},
  {number: 2, name: "S", data: {id: 3, attrs: [{number: 4, name: "T", data: false}]}},
  {number: 3, name: "E", data: [{number: 0, name: null, data: "x"}, {number: 1, name: null, data: "y"}]},
  {number: 5, name: "N", data: []}, {number: 6, name: "M", data: [1, 2]}]}]}'

# Routes of two dumps: one came, one went, one has other flags, and one is older.
route='def route($dst; $flags; $age): {family: 2, dst_len: 24, flags: $flags, attrs: [{number: 1, name: "DST",
  value: $dst}, {number: 12, name: "CACHEINFO", value: "", data: {age: $age}}]};
  def lines: [{messages: (map({type: "newroute", route: .}))}];
  [route("10.0.1.0"; 0; 1), route("10.0.2.0"; 0; 1), route("10.0.3.0"; 0; 1)] as $a
  | [route("10.0.1.0"; 0; 2), route("10.0.2.0"; 16; 1), route("10.0.4.0"; 0; 1)] as $b
  | changes($a | lines; $b | lines)'

# says_as_ip FOLDER: what the recordings of a machine say, beside what ip said there.
says_as_ip() {
  local kind
  for kind in link addr route; do
    "$user/rtnl" show --format json "examples/rich/6.1/$kind.hex" >"$folder/rich.$kind" || return
  done
  cat "$folder"/rich.{link,addr,route} | jq -c --slurpfile links "$folder/rich.link" -L "$prefix/share/rtnl" \
    -f tests/getting_started/as_ip.jq | tests/getting_started/as_ip.py "$1"
}

# finds_other: a value of ip that is other is found.
finds_other() {
  mkdir "$folder/other" && cp tests/data/module/* "$folder/other" &&
    sed -i 's/"id":42,/"id":43,/' "$folder/other/links.jsonl" &&
    ! says_as_ip "$folder/other" >"$folder/output" && grep -qx 'links 20: data.id is 43, not 42' "$folder/output"
}

# ask_meanings: the cases of what payloads mean, and of what is asked of it.
ask_meanings() {
  check 'what ip says' ends 0 '726 of links, 132 of addrs, 1022 of routes' '' says_as_ip tests/data/module
  check 'another value of ip is found' finds_other
  check 'a meaning in front of a value' gives \
    "$meaning | attr(\"A\", \"A.name\", \"L.S.id\", \"L.S.T\", \"L.M\")" \
    $'{"number":6,"name":"UP"}\n"UP"\n3\nnull\n[1,2]'
  check 'meanings of a name' gives "$meaning | [attrs(\"L.B\")], [attrs(\"L.S.T\")], [attrs(\"L.E.1\")]" \
    $'[7,8]\n[false]\n["y"]'
  check 'attributes by name' gives "$meaning | attr(\"L\") | data" \
    '{"B":[7,8],"9":"ff","S":{"id":3,"attrs":{"T":false}},"E":["x","y"],"N":[],"M":[1,2]}'
  check 'a body by name' gives "$meaning | data | .attrs.A.name" '"UP"'
  check 'counters' gives '{attrs: [{name: "STATS64", data: {rx_bytes: 9}}]}, {attrs: []} | [stats]' \
    $'[{"rx_bytes":9}]\n[]'
  check 'reasons' gives '{code: -101, data: [{name: "MSG", data: "no"}]}, {code: 0, data: []}, {code: -999}
    | [why]' $'[{"code":-101,"name":"ENETUNREACH","message":"no","offset":null}]\n[]
[{"code":-999,"name":null,"message":null,"offset":null}]'
  check 'names of links' asks show '([.] | names) as $names | links | [.index, 9, null | dev($names)]' \
    '["eth0.10","if9",null]'
  check 'prefixes' gives '["10.0.0.0/8", "10.255.0.1"], ["10.0.0.0/31", "10.0.0.2"], ["0.0.0.0/0", "::1"],
    ["::/0", "::1"],
    ["2001:db8::/33", "2001:0db8:7fff:0000:0000:0000:0000:0001"], ["2001:db8::/33", "2001:db8:8000::"], ["::1", "::1"]
    | covers(.[0]; .[1])' $'true\nfalse\nfalse\ntrue\ntrue\nfalse\ntrue'
  check 'the longest match' gives '[[24, 1], [24, 0], [8, 0], [25, 0]] | map({ family: 2, dst_len: .[0], attrs:
    [{ name: "DST", value: "10.0.0.0" }, { name: "PRIORITY", value: .[1] }] })
    | longest("10.0.0.200", "10.0.0.1", "11.0.0.0") | [.dst_len?, (.attrs[1].value)?]' $'[24,0]\n[25,0]\n[null,null]'
  check 'short addresses' gives '"2001:0db8:0000:0000:0001:0000:0000:0000", "0000:0000:0000:0000:0000:0000:0000:0000",
    "fe80:0000:0001:0002:0003:0004:0005:0006", "10.0.0.1", "0a:00:00:00:00:01", null | short' \
    $'"2001:db8:0:0:1::"\n"::"\n"fe80:0:1:2:3:4:5:6"\n"10.0.0.1"\n"0a:00:00:00:00:01"\nnull'
  check 'addresses of digits' gives '"0a0000fe", "20010db800000000000000000000000b" | address' \
    $'"10.0.0.254"\n"2001:db8::b"'
  check 'labels' gives '"0.6.65.0", { entry: 819456 } | mpls' $'100\n200'
  check 'the label of a route' gives '{ dst_len: 20, attrs: [
    { name: "DST", value: "0.6.65.0", data: { entry: 409856 } }] } | prefix' '"100"'
  check 'names of numbers' gives '{ table: 254, protocol: 186, scope: 253, attrs: [] },
    { table: 252, protocol: 7, scope: 1, attrs: [{ name: "TABLE", value: 1000, data: { number: 1000, name: null } }] }
    | [table, protocol, scope]' \
    $'["main","bgp","link"]\n[1000,7,1]'
  check 'changes' gives "$route | [.change, (.route | prefix), differs]" \
    $'["~","10.0.2.0/24",{"flags":[0,16]}]\n["+","10.0.4.0/24"]\n["-","10.0.3.0/24"]'
}

# ask_module: the cases.
ask_module() {
  local name input
  check 'names and MTUs' asks show 'links | [attr("IFNAME"), attr("MTU")]' '["eth0.10",1500]'
  check 'attributes in lists' asks show \
    'links | [attr("LINKINFO.KIND"), attr("LINKINFO.DATA.1")]' '["vlan",10]'
  check 'a list, asked again' asks show 'links | attr("LINKINFO") | attr("KIND")' '"vlan"'
  check 'numbers' asks show 'links | [attr("67"), attr(67), attr("3")]' '[1,1,"eth0.10"]'
  check 'attributes that are not there' asks show \
    'links | [attr("MASTER"), attr("mtu"), attr("MTU.X"), attr("LINKINFO.X.Y"), attr("99")]' \
    '[null,null,null,null,null]'
  check 'attributes of nothing' gives \
    'null | [attr("MTU"), attr("A.B"), [attrs("MTU")]]' '[null,null,[]]'
  check 'the first of a name' gives "$body | [attr(\"A\", \"B.3\", \"B.1\")]" '[0,"",null]'
  check 'all of a name' gives "$body | [attrs(\"A\")], [attrs(\"B.1\")], [attrs(\"C\")]" \
    $'[0,2]\n[3,4]\n[]'
  check 'deletions are not links' asks show \
    '[links, bodies("dellink")] | map(.index) | select(. != [])' $'[2]\n[3]'
  check 'what is there' asks show \
    '[(links, addrs, routes, neighs, rules) | .attrs[0].name] | select(. != [])' \
    $'["IFNAME"]\n["ADDRESS"]\n["DST"]\n["DST"]\n["TABLE"]'
  for name in links addrs routes neighs rules; do
    check "the entry of a table: $name" asks table "$name == .${name%s}" true
    check "no $name in a check" asks check "$name" ''
  done
  # Of a mirror's lines one link is an entry; a link, a route and a rule are new, and one of each kind came again.
  check 'what is there of a mirror' asks mirror \
    '[(links | "link"), (addrs | "addr"), (routes | "route"), (neighs | "neigh"), (rules | "rule")] | select(. != [])' \
    $'["link"]\n["link"]\n["route"]\n["rule"]\n["link"]\n["addr"]\n["route"]\n["neigh"]\n["rule"]'
  check 'bodies of other messages' asks show 'bodies("noop", "other"), bodies("error").code,
    bodies("done").status, bodies("getrule").family' $'""\n"abcd"\n-1\n0\n4'
  check 'next hops' asks show 'routes | [attr("GATEWAY"), (hops | [.index, attr("GATEWAY")])]' \
    '[null,[2,"192.0.2.1"],[3,null]]'
  check 'the one next hop' asks show \
    'bodies("delroute") | hops | [.index, attr("GATEWAY")]' '[2,"192.0.2.1"]'
  check 'a gateway alone' gives \
    '{attrs: [{name: "GATEWAY", value: "::"}]} | hops | .index' null
  check 'no next hop' asks table 'routes | [hops]' '[]'
  for input in '{datagram: 1, canonical: true}' '"00"' 1; do
    check "no attributes: $input" stops "$input"
  done
}

if has jq 'the module of jq'; then
  ask_module
  ask_meanings
fi
