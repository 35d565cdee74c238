# The rich machine of examples/rich/: its recordings, and what of it can be made here.

# refuses_none FILE: each datagram is printed as canonical or accepted, and there are some.
refuses_none() {
  "$program" check "$1" >"$folder/checked" && [ -s "$folder/checked" ] &&
    [ "$(grep -c . "$folder/checked")" = "$(grep -vc '^#' "$1")" ]
}

# has_rich_entries FILE COUNT: its table is complete, and has so many entries.
has_rich_entries() {
  "$program" table "$1" >"$folder/table" && [ "$(tail -n 1 "$folder/table")" = 'complete yes' ] &&
    grep -q "^entries $2 missed 0 ignored 0 unfed 0 " "$folder/table"
}

# has_messages FILE TYPE COUNT: it has so many messages of this type.
has_messages() {
  "$program" show "$1" >"$folder/shown" && [ "$(grep -c "^message $2 " "$folder/shown")" = "$3" ]
}

rich=examples/rich
for file in "$rich"/*/*.hex; do check "none is refused: $file" refuses_none "$file"; done
# As many as ip and bridge listed there; of rules those of IPv4 and IPv6.
while read -r name count; do
  check "entries of $name" has_rich_entries "$rich/6.1/$name.hex" "$count"
done <<'END'
link 40
addr 33
route 168
fdb 121
mpls 2
ports 3
END
check 'entries of rule' [ "$("$program" table "$rich/6.1/rule.hex" | grep -cE '^ +rule family (2|10) ')" = 15 ]
check 'names of links' diff "$rich/6.1/links.txt" \
  <("$program" show "$rich/6.1/link.hex" | sed -n 's/^    attr 3 IFNAME - text //p')

# records_machine: each recording of the machine that this kernel allows is read, and has as many links and nexthops as
# ip lists. What is refused is named.
records_machine() {
  local made=$folder/rich file
  mkdir "$made"
  # shellcheck disable=SC2016
  "$rich/machine.sh" sh -c 'ip -o link | wc -l >"$0.links"; ip nexthop | wc -l >"$0.nexthops"; exec "$@"' "$made" \
    "$rich/record.sh" "$made" eth0 2>"$folder/errors"
  [ $? -le 1 ] && ! grep -vE '^(refused: |rtnl-record: the kernel answered with error )' "$folder/errors" || return
  for file in "$made"/*.hex; do refuses_none "$file" || ! echo "$file" || return; done
  [ -e "$made/link.hex" ] && has_rich_entries "$made/link.hex" "$(<"$made.links")" &&
    has_messages "$made/nexthop.hex" 104 "$(<"$made.nexthops")" && [ "$(<"$made.links")" -gt 10 ]
}
says_usage() {
  "$rich/$1" >"$folder/output" 2>"$folder/errors"
  [ $? = 2 ] && [ ! -s "$folder/output" ] && grep -qx "  *examples/rich/machine.sh $2" "$folder/errors"
}
check 'the usage of the machine' says_usage machine.sh 'COMMAND ..'
check 'the usage of its recordings' says_usage record.sh 'examples/rich/record.sh FOLDER \[DEVICE\]'
