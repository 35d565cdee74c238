# The examples of each language, built over the library that installed.sh has installed, and run
# over recordings, and over the kernel where the machine opens a socket. What they are to print was
# written by hand, is in the program's JSON, or stands in the kernel's files. tests/bindings.sh runs
# those in C that the packages of other languages have too.

. tests/helpers/namespace.sh
export PKG_CONFIG_PATH=$prefix/lib/pkgconfig LD_LIBRARY_PATH=$prefix/lib

# The recording has the loopback link, and then the end of the dump.
links='lo mtu 65536'
link='lo UNKNOWN 65536 00:00:00:00:00:00'

# The answers to a request: a link with index 7 and no attribute; a route without a destination,
# and one to 10.0.0.0/8 whose next hop alone has an index; the end of the dump, and one with the
# flag NLM_F_DUMP_INTR.
bare='20000000 1000 0200 01000000 01000000 0000 0100 07000000 00000000 00000000'
default='1c000000 1800 0200 01000000 01000000 02000000 00000000 00000000'
hops='30000000 1800 0200 01000000 01000000 02080000 00000000 00000000 0800 0100 0a000000'
hops+=' 0c00 0900 0800 0000 03000000'
ended='14000000 0300 0200 01000000 01000000 00000000'
interrupted='14000000 0300 1200 01000000 01000000 00000000'
programs=(links routes watch stream)
writers=(link_up route_add)
keepers=(mirror)

# What a kernel tells a mirror: the dump of links is interrupted first, and then has a link with
# index 7; those of other tables are empty. Then an address of IPv6 comes, changes and goes, and a
# second link comes.
told_link='20000000 1000 0000 00000000 00000000 0000 0100 08000000 03100000 00000000'
told_addr='18000000 1400 0000 00000000 00000000 0a40 8000 07000000'
changed_addr='18000000 1400 0000 00000000 00000000 0a40 00fd 07000000'
gone_addr='18000000 1500 0000 00000000 00000000 0a40 00fd 07000000'
kept='? links stale: never dumped
= links 1 entries
= addresses 0 entries
= routes 0 entries
= neighbours 0 entries
= rules 0 entries
+ addr family 10 prefix 64 flags 0x80 scope 0 index 7
~ addr family 10 prefix 64 flags 0x00 scope 253 index 7
- addr family 10 prefix 64 flags 0x00 scope 253 index 7
+ link family 0 type 1 index 8 flags 0x00001003 UP,BROADCAST,MULTICAST change 0x00000000'

# What stands alone, without a header of this folder, and opens a socket of the kernel's itself.
alone=(first)

# in_json: the link of the recording, its name and what the program's JSON says.
in_json() {
  "$program" show --format json examples/links.hex | jq -L share -r \
    'include "rtnl"; links | "\(attr("IFNAME")) mtu \(attr("MTU"))"'
}
is_in_json() { diff <(echo "$links") <(in_json); }

# routes_in_json: where each route of the recording leads, as stream.c prints it.
routes_in_json() {
  "$program" show --format json examples/routes.hex | python3 -c '
import ipaddress, json, sys
for datagram in map(json.loads, sys.stdin):
    for route in (it["route"] for it in datagram["messages"] if "route" in it):
        values = {it["number"]: it.get("value") for it in reversed(route["attrs"])}
        to = "default"
        if route["dst_len"]:
            to = "%s/%d" % (ipaddress.ip_address(values[1]).compressed, route["dst_len"])
        print(to, "oif", values.get(4, "-"))'
}

# prints TEXT COMMAND..: the command ends well and prints this text.
prints() { [ "$("${@:2}")" = "$1" ]; }

# played NAME RECORDING: an example in C, over a kernel that answers so.
played() { tests/bindings/play.py "$2" -- "$folder/$1"; }

# compiled NAME: an example in C, as a user builds it.
compiled() {
  # shellcheck disable=SC2046
  cc -Wall -Wextra -Werror "examples/c/$1.c" $(pkg-config --cflags --libs rtnlc) -o "$folder/$1"
}

# in_static NAME: the same with the static library alone, and in strict C99.
in_static() {
  cc -std=c99 -O2 -Wall -Wextra -pedantic -Werror "-I$prefix/include" "examples/c/$1.c" \
    "$prefix/lib/librtnlc.a" -o "$folder/$1"
}

# of_lines STATUS TEXT PROGRAM LINE..: the program ends so and prints this of these lines, on
# standard error too.
of_lines() {
  local status=$1 text=$2 name=$3
  printf '%s\n' "${@:4}" >"$folder/lines"
  played "$name" "$folder/lines" >"$folder/output" 2>&1
  [ $? = "$status" ] && [ "$(<"$folder/output")" = "$text" ]
}

# keeps: the mirror asks for each table and prints what changes.
keeps() {
  local at answers=("$interrupted" "$bare$ended" "$ended" "$ended" "$ended"
    "$ended"$'\n'"$told_addr"$'\n'"$changed_addr"$'\n'"$gone_addr$told_link")
  for at in "${!answers[@]}"; do echo "${answers[at]}" >"$folder/answer.$at"; done
  prints "$kept" tests/bindings/play.py "$folder"/answer.? -- "$folder/mirror"
}

# is_short NAME LINES
is_short() { [ "$(wc -l <"examples/c/$1")" -le "$2" ]; }

# stands_alone NAME: it reads in no header of this folder.
stands_alone() { ! grep '^#include "' "examples/c/$1"; }

# is_of_the_kernel: the links are those that this machine's files say, with their addresses.
is_of_the_kernel() {
  local file
  for file in /sys/class/net/*/ifindex; do
    echo "$(basename "${file%/ifindex}") $(<"${file%/ifindex}/address")"
  done | sort | diff - <("$folder/links" | cut -d ' ' -f 1,4 | sort)
}

# has_loopback PROGRAM LINE: the kernel's routes are read to their end, and one is that of the
# loopback link.
has_loopback() { "$folder/$1" >"$folder/output" && grep -qx "$2" "$folder/output"; }

# is_told: the loopback link of a namespace is set up and down until a notification says so. Its
# address outlasts that, and would be told once alone, so it goes each time.
is_told() {
  # shellcheck disable=SC2016
  in_namespace sh -c '
    "$1" >"$2" & told=$!
    for _ in $(seq 50); do
      ip link set lo up; ip link set lo down; ip address flush dev lo
      grep -qx "new link lo UNKNOWN" "$2" && grep -qx "new addr 127.0.0.1/8 1" "$2" &&
        grep -qx "del route ::1/128 - 1" "$2" && kill "$told" && exit
      sleep 0.1
    done
    kill "$told"; tail -n 20 "$2"; exit 1' sh "$folder/watch" "$folder/output"
}

# writes: in a namespace a link is brought up, and routes over one next hop and over two are there;
# the same route once more is refused by the kernel.
writes() {
  # shellcheck disable=SC2016
  in_namespace sh -c '
    "$1" lo && ip addr add 10.1.0.1/24 dev lo &&
      "$2" 192.0.2.0/24 via 10.1.0.2 dev lo &&
      "$2" 198.51.100.0/24 via 10.1.0.2 dev lo via 10.1.0.3 dev lo &&
      ip -o link show lo | grep -q "[<,]UP" &&
      ip route show 192.0.2.0/24 | grep -q "via 10.1.0.2 dev lo" &&
      [ "$(ip route show 198.51.100.0/24 | grep -c "nexthop via 10.1.0.[23]")" = 2 ] || exit
    "$2" 192.0.2.0/24 via 10.1.0.2 dev lo; [ $? = 3 ]' \
    sh "$folder/link_up" "$folder/route_add"
}

# The programs in C, over the library that is $1.
run_programs() {
  check "links.c, $1" prints "$link" played links examples/links.hex
  check "stream.c, $1" prints "$(routes_in_json)" played stream examples/routes.hex
  check "links.c, $1: nothing known" of_lines 0 '- - - -' links "$bare$ended"
  check "stream.c, $1: no destination, no index" \
    of_lines 0 $'default oif -\n10.0.0.0/8 oif -' stream '# lines' "$default" '' "$hops" "$ended"
  check "stream.c, $1: interrupted" of_lines 2 'stream: interrupted' stream "$interrupted"
  check "mirror.c, $1" keeps
  check "stream.c, $1: no end" of_lines 2 $'default oif -\nstream: the answer ended early' \
    stream "$default"
}

check 'what is expected of the examples' is_in_json
for name in "${programs[@]}"; do check "$name.c is short" is_short "$name.c" 60; done
for name in "${alone[@]}"; do
  check "$name.c is short" is_short "$name.c" 40
  check "$name.c stands alone" stands_alone "$name.c"
done
for name in source parts dump change; do check "$name.h is short" is_short "$name.h" 120; done
check 'link_up.c is short' is_short link_up.c 60
check 'route_add.c is short' is_short route_add.c 110
check 'mirror.c is short' is_short mirror.c 200
for name in "${programs[@]}" "${writers[@]}" "${keepers[@]}" "${alone[@]}"; do
  check "$name.c with librtnlc.a" in_static "$name"
done
run_programs 'with librtnlc.a'
if has pkg-config 'the examples in C with pkg-config'; then
  for name in "${programs[@]}" "${writers[@]}" "${keepers[@]}" "${alone[@]}"; do
    check "$name.c with librtnlc.so" compiled "$name"
  done
  run_programs 'with librtnlc.so'
fi
if "$folder/links" >/dev/null 2>&1; then
  check 'links.c asks the kernel' is_of_the_kernel
  check 'routes.c asks the kernel' has_loopback routes '127.0.0.0/8 - lo 255'
  check 'stream.c asks the kernel' has_loopback stream '127.0.0.0/8 oif 1'
else
  echo 'skipped: the examples in C over a socket, since the machine opens none'
fi
if in_namespace ip link set lo up; then
  check 'first.c names the links of a namespace' names_links "$folder/first"
  check 'watch.c hears the kernel' is_told
  check 'link_up.c and route_add.c ask the kernel' writes
  check 'mirror.c prints each change within a second' \
    in_namespace tests/c_library/keeps.py "$folder/mirror"
else
  echo 'skipped: first.c, watch.c and mirror.c over a socket, since no namespace can be made here'
fi

# A link with an MTU and no name, and one with neither.
nameless='28000000 1000 0200 01000000 01000000 0000 0100 07000000 00000000 00000000 0800 0400'
printf '%s\n' "${nameless}dc050000" "$bare" | tr -d ' ' >"$folder/nameless"
