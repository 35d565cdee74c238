#!/usr/bin/env bash
# Refuses the growths of a program one by one: the first in one run, the second in the next, and so on until a
# run asks for no more. Whole runs of the built program come first: a refused growth ends it as out of memory, with
# nothing on standard output, or with the first datagrams of what is followed, each of them whole; or it wasn't needed
# and changes nothing. What is explained may also be left out, and then it says so. Then come the calls of the
# libraries, by the tables in refuse/. The last line is 'N passed, M failed', and the status is 1 where a case failed.
set -u
cd "$(dirname "${BASH_SOURCE[0]}")/.." || exit 1
program=$(tests/helpers/proved.py) || exit 1
. tests/helpers/cases.sh
library=$folder/refuse.so
mark=$folder/refused

# The program asks the C library for memory by no function that the library here doesn't count.
asks_by_counted_functions() {
  local asked='malloc|calloc|realloc'
  local others='posix_memalign|memalign|aligned_alloc|valloc|pvalloc|reallocarray|mmap|mmap64|mremap|brk|sbrk'
  nm -D --undefined-only "$program" >"$folder/names" &&
    grep -Eq " ($asked)(@|\$)" "$folder/names" && ! grep -Eq " ($others)(@|\$)" "$folder/names"
}

# run FILES [ARGUMENT..]: a run over standard input; what it answers is FILES with three endings.
run() {
  local files=$1
  shift
  "$program" "$@" >"$files.output" 2>"$files.errors"
  echo $? >"$files.status"
}

# is_refused NUMBER INPUT [ARGUMENT..]: a run in which the growth of this number is refused came so far.
is_refused() {
  local number=$1 input=$2
  shift 2
  rm -f "$mark"
  REFUSE=$number REFUSED=$mark LD_PRELOAD=$library run "$folder/found" "$@" <"$input"
  [ -e "$mark" ]
}

# has_first_errors: all errors but the last are the first ones of a run without the library.
has_first_errors() {
  local count
  count=$(($(wc -l <"$folder/found.errors") - 1))
  head -n -1 "$folder/found.errors" | cmp -s - <(head -n "$count" "$folder/whole.errors")
}

# is_ended COMMAND: the run ended as out of memory. `follow` and `mirror` may have named bad lines before.
is_ended() {
  [ "$(<"$folder/found.status")" = 4 ] && is_begun "$1" &&
    case $1 in
      follow | mirror) [ "$(tail -n 1 "$folder/found.errors")" = 'rtnl: out of memory' ] && has_first_errors ;;
      *) echo 'rtnl: out of memory' | cmp -s - "$folder/found.errors" ;;
    esac
}

# is_begun COMMAND: nothing was written, or by `follow` the first datagrams, or by `mirror` what it said of them.
is_begun() {
  local size
  size=$(wc -c <"$folder/found.output")
  [ "$size" = 0 ] || { [[ $1 == @(follow|mirror) ]] && is_front "$size"; }
}

# What else a line of `mirror` begins with.
of_mirrors='|[-+~=?] |table |\{"(change|table)":|\{"datagram":[0-9]+,"refused":'

# is_front SIZE: so many bytes were written, the first of what is written without the library, and no datagram is cut, no
# entry of a dump, and no change of a table.
is_front() {
  head -c "$1" "$folder/whole.output" | cmp -s - "$folder/found.output" &&
    { [ "$1" = "$(wc -c <"$folder/whole.output")" ] ||
      tail -c "+$(($1 + 1))" "$folder/whole.output" | head -n 1 |
        grep -Eq '^(datagram |entry |end |\{"datagram":[0-9]+,("bytes"|"offset":0,)|\{"(entry|dump)":'"$of_mirrors)"; }
}

# The run answered what one without the library answers.
is_whole() {
  local ending
  for ending in status output errors; do
    cmp -s "$folder/whole.$ending" "$folder/found.$ending" || return 1
  done
}

# The run answered so, but for lines that should explain, in whose place it says that memory ran out.
is_unexplained() {
  cmp -s "$folder/whole.status" "$folder/found.status" && cmp -s "$folder/whole.output" "$folder/found.output" &&
    [ "$(tail -n 1 "$folder/found.errors")" = 'rtnl: not explained: out of memory' ] && has_first_errors
}

# What `mirror` says of a table that misses something; of one that was never dumped this stays the reason.
of_doubts='^(\? [a-z]+|entries .* no:|\{.*"stale":)[ "]*(memory|never dumped)("\})?$'

# is_doubted COMMAND: `mirror` went on without what it had no memory for, and said so of the table that misses it.
is_doubted() {
  [ "$1" = mirror ] && [ "$(<"$folder/found.status")" = 1 ] && cmp -s "$folder/whole.errors" "$folder/found.errors" &&
    grep -Eq "$of_doubts" "$folder/found.output"
}

is_ended_or_whole() { is_ended "$1" || is_whole || is_unexplained || is_doubted "$1"; }

# The number of the next growth that is refused is greater by one, and by so many tenths.
share=0
whole 'most growths of a run' || share=3

# refuse_each NAME STATUS INPUT [ARGUMENT..]: each growth of these runs in turn, and a run without a refusal. Of those
# that ended as out of memory, $begun had written something.
refuse_each() {
  local name=$1 status=$2 input=$3 command=${4-} number=1 refused=0 ended=0
  begun=0
  shift 3
  run "$folder/whole" "$@" <"$input"
  check "$name, the status of a whole run" [ "$(<"$folder/whole.status")" = "$status" ]
  while is_refused "$number" "$input" "$@"; do
    check "$name, growth $number" is_ended_or_whole "$command"
    is_ended "$command" && ended=$((ended + 1)) && [ -s "$folder/found.output" ] && begun=$((begun + 1))
    refused=$((refused + 1)) number=$((number + 1 + number * share / 10))
  done
  check "$name, no growth refused" is_whole
  check "$name, some growth is needed" [ "$ended" -gt 0 ]
  echo "$name: $refused growths refused, $ended of them needed"
}

./rtnl </dev/null || exit 1
cc -shared -fPIC -O1 -o "$library" tests/refuse/refuse.c || exit 1
check 'the functions that ask for memory' asks_by_counted_functions

# One DONE of status 0, and what is shown of it.
echo 1400000003000200010000003930000000000000 >"$folder/done"
cat >"$folder/done.text" <<'TEXT'
datagram 1 bytes 20
message 3 done flags 0x0002 MULTI seq 1 port 12345
  done status 0 tail -
TEXT
refuse_each 'a DONE' 0 "$folder/done"
check 'a DONE, its text' cmp -s "$folder/done.text" "$folder/found.output"

# The same in colours: the third word of the message's line is bold.
sed $'s/done flags/\e[1mdone\e[0m flags/' "$folder/done.text" >"$folder/done.colours"
refuse_each 'a DONE in colours' 0 "$folder/done" show --color always
check 'a DONE in colours, its text' cmp -s "$folder/done.colours" "$folder/found.output"

refuse_each 'examples/routes.hex' 0 /dev/null show examples/routes.hex
check 'examples/routes.hex, its datagrams' [ "$(grep -c '^datagram ' "$folder/found.output")" = 3 ]

refuse_each 'examples/routes.hex, checked' 0 /dev/null check examples/routes.hex
check 'examples/routes.hex, its check' [ "$(grep -c ' canonical$' "$folder/found.output")" = 3 ]

# The same as lines of JSON.
cat >"$folder/done.json" <<'JSON'
{"datagram":1,"bytes":20,"messages":[{"message":3,"type":"done","flags":2,"flag_names":["MULTI"],"seq":1,"port":12345,"done":{"status":0,"tail":""}}]}
JSON
refuse_each 'a DONE in JSON' 0 "$folder/done" show --format json
check 'a DONE in JSON, its line' cmp -s "$folder/done.json" "$folder/found.output"

refuse_each 'examples/routes.hex in JSON' 0 /dev/null show --format json examples/routes.hex
check 'examples/routes.hex in JSON, its datagrams' [ "$(grep -c '^{"datagram":' "$folder/found.output")" = 3 ]

refuse_each 'examples/routes.hex, checked, in JSON' 0 /dev/null check --format json examples/routes.hex
check 'examples/routes.hex in JSON, its check' \
  [ "$(grep -c '^{"datagram":[123],"canonical":true}$' "$folder/found.output")" = 3 ]

# The bytes beside what they are, and of a refused datagram too.
cat >"$folder/done.bytes" <<'TEXT'
datagram 1 bytes 20
    0  14 00 00 00                                      nlmsg_len 20
    4  03 00                                            nlmsg_type 3 NLMSG_DONE
    6  02 00                                            nlmsg_flags 0x0002 MULTI
    8  01 00 00 00                                      nlmsg_seq 1
   12  39 30 00 00                                      nlmsg_pid 12345
   16  00 00 00 00                                        status 0
TEXT
refuse_each 'a DONE in bytes' 0 "$folder/done" show --bytes
check 'a DONE in bytes, its rows' cmp -s "$folder/done.bytes" "$folder/found.output"

refuse_each 'examples/routes.hex in bytes' 0 /dev/null show --bytes examples/routes.hex
check 'examples/routes.hex in bytes, its datagrams' [ "$(grep -c '^datagram ' "$folder/found.output")" = 3 ]

cat >"$folder/done.objects" <<'JSON'
{"datagram":1,"offset":0,"length":4,"bytes":"14000000","level":0,"name":"nlmsg_len","value":20,"fault":null}
{"datagram":1,"offset":4,"length":2,"bytes":"0300","level":0,"name":"nlmsg_type","value":"NLMSG_DONE","fault":null}
{"datagram":1,"offset":6,"length":2,"bytes":"0200","level":0,"name":"nlmsg_flags","value":2,"fault":null}
{"datagram":1,"offset":8,"length":4,"bytes":"01000000","level":0,"name":"nlmsg_seq","value":1,"fault":null}
{"datagram":1,"offset":12,"length":4,"bytes":"39300000","level":0,"name":"nlmsg_pid","value":12345,"fault":null}
{"datagram":1,"offset":16,"length":4,"bytes":"00000000","level":0,"name":"status","value":0,"fault":null}
JSON
refuse_each 'a DONE in bytes, in JSON' 0 "$folder/done" show --bytes --format json
check 'a DONE in bytes, in JSON, its rows' cmp -s "$folder/done.objects" "$folder/found.output"

# A shorter one, since each line takes memory.
addresses=tests/data/recordings/loopback_addresses.hex
refuse_each "$addresses in bytes, in JSON" 0 /dev/null show --bytes --format json "$addresses"
check "$addresses in bytes, in JSON, its datagrams" \
  [ "$(grep -c '^{"datagram":[12],"offset":0,' "$folder/found.output")" = 2 ]

# A link and DONE in both orders, an address, a neighbour, a rule and a route with two next hops, each with
# DONE, and a link before a header that is cut.
finish_hex='14000000 0300 0200 01000000 39300000 00000000'
link='30000000 1000 0200 01000000 39300000 00000403 01000000 49000100 00000000 07000300 6c6f0000 08000400 00000100'
printf '%s\n' "$link" "$finish_hex" >"$folder/links"
echo '00000030 0010 0002 00000001 00003039 00000304 00000001 00010049 00000000 00070003 6c6f0000 00080004 00010000' \
  '00000014 0003 0002 00000001 00003039 00000000' >"$folder/links_big"
echo '30000000 1400 0200 01000000 39300000 020880fe 01000000 08000100 7f000001 08000200 7f000001 07000300 6c6f0000' \
  "$finish_hex" >"$folder/addresses"
echo '40000000 1800 0200 01000000 39300000 02000000 fe030001 00000000 24000900 10000000 02000000 08000500 c0000201' \
  '10000001 03000000 08000500 c0000202' "$finish_hex" >"$folder/routes"
echo '3c000000 1c00 0200 01000000 39300000 0a000000 02000000 02008001 14000100 fe800000 00000000 00000000 00000001' \
  '0a000200 02000000 00010000' "$finish_hex" >"$folder/neighbours"
echo '34000000 2000 0200 01000000 39300000 02000000 fe000001 00000000 08000f00 e8030000 07000300 6c6f0000' \
  '08000600 fe7f0000' "$finish_hex" >"$folder/rules"
printf '%s\n' "$link 14000000 0300 0200 0100" "$link" "$finish_hex" >"$folder/cut"

# table_each NAME STATUS FILE KIND [ARGUMENT..]: each growth of reading this file as a dump of this kind.
table_each() {
  local name=$1 status=$2 file=$3 kind=$4
  shift 4
  refuse_each "$name" "$status" "$folder/$file" table --kind "$kind" --seq 1 --port 12345 "$@"
  check "$name, its entry" [ "$(grep -Ec '^(entry |\{"entry":)' "$folder/found.output")" = 1 ]
}

table_each 'a table of links' 0 links link
table_each 'a table of links, order big' 0 links_big link --order big
table_each 'a table of addresses' 0 addresses addr
table_each 'a table of routes' 0 routes route --depth 2
table_each 'a table of neighbours' 0 neighbours neigh --entries 1
table_each 'a table of rules' 0 rules rule
table_each 'a table, a datagram refused' 1 cut link
table_each 'a table of links in JSON' 0 links link --format json
table_each 'a table of links in JSON, order big' 0 links_big link --order big --format json
table_each 'a table of addresses in JSON' 0 addresses addr --format json
table_each 'a table of routes in JSON' 0 routes route --depth 2 --format json
table_each 'a table of neighbours in JSON' 0 neighbours neigh --entries 1 --format json
table_each 'a table of rules in JSON' 0 rules rule --format json
table_each 'a table in JSON, a datagram refused' 1 cut link --format json

# The numbers of a dump from the recording, and a usage error where it has none, or cannot be opened.
{ echo '# seq 1 port 12345' && cat "$folder/links"; } >"$folder/named"
refuse_each 'a table whose recording names its numbers' 0 "$folder/named" table --kind link
check 'a table whose recording names its numbers, its entry' grep -qx 'entry 1' "$folder/found.output"
refuse_each 'a table without numbers' 2 "$folder/links" table --kind link
check 'a table without numbers, its usage' grep -q '^error: --seq and --port are needed, ' "$folder/found.errors"
refuse_each 'a table without numbers, a missing file' 2 /dev/null table --kind link "$folder/missing"
refuse_each 'a table of a missing file' 3 /dev/null table --kind link --seq 1 --port 1 "$folder/missing"

refuse_each 'a request' 0 /dev/null request --kind link --seq 1
refuse_each 'a request, order big' 0 /dev/null request --kind route --family 2 --seq 7 --order big
check 'a request, its bytes' grep -qx 0000001c001a03010000000700000000020000000000000000000000 "$folder/found.output"

echo zz >"$folder/bad"
refuse_each 'a bad line' 1 "$folder/bad" show
refuse_each 'a bad line of a table' 1 "$folder/bad" table --kind link --seq 1 --port 1
refuse_each 'a bad line, in JSON' 1 "$folder/bad" show --format json
refuse_each 'a usage error' 2 /dev/null show --order middle
refuse_each 'a format that is none' 2 /dev/null show --format xml
refuse_each 'a number with a sign' 2 /dev/null request --kind link --seq=+1
refuse_each 'a usage error that shows an escape' 2 /dev/null show $'--\x1b[m'
check 'a usage error that shows an escape, its text' grep -qF '\x1b[m' "$folder/found.errors"
refuse_each 'a number out of its range' 2 /dev/null table --kind link --seq 1 --port 1 --depth 33
refuse_each 'a missing option' 2 /dev/null request --kind link
refuse_each 'a missing file' 3 /dev/null show "$folder/missing"
refuse_each 'an unknown command' 2 /dev/null links.hex
refuse_each 'help' 0 /dev/null --help
refuse_each 'the version' 0 /dev/null --version
refuse_each 'help of table' 0 /dev/null table --help

refuse_each 'a refusal, explained' 1 "$folder/done" check --order big --explain
check 'a refusal, explained, its line' grep -q '^rtnl: datagram 1: bad length at 0: ' "$folder/found.errors"
refuse_each 'a refusal at a level, explained' 1 "$folder/cut" show --explain
refuse_each 'a refusal in bytes' 1 "$folder/cut" show --bytes
refuse_each 'a refusal in bytes, in JSON' 1 "$folder/cut" show --bytes --format json
refuse_each 'a refusal in bytes, in colour, explained' 1 "$folder/cut" show --bytes --color always --explain
check 'a refusal in bytes, its row' grep -q ' .\[1;31m!! nlmsghdr: cut at 48, 10 bytes left.\[0m$' "$folder/found.output"
refuse_each 'a refusal of a table, explained' 1 "$folder/cut" table --kind link --seq 1 --port 12345 --explain
check 'a refusal of a table, explained, its line' [ "$(wc -l <"$folder/found.errors")" = 1 ]
refuse_each 'a full table, explained' 1 "$folder/links" table --kind link --seq 1 --port 12345 --entries 0 --explain
check 'a full table, explained, its line' grep -q '^rtnl: missed 1: ' "$folder/found.errors"
refuse_each 'a table of other numbers, explained' 1 "$folder/links" table --kind link --seq 2 --port 1 --explain
check 'a table of other numbers, explained, its line' grep -q '^rtnl: ignored 2: ' "$folder/found.errors"
refuse_each 'a bad line, explained' 1 "$folder/bad" check --explain
# An error of -101 that answers a RTM_NEWROUTE of 29 bytes, and attributes behind it: a message and an offset.
echo '34000000 0200 0003 01000000 39300000 9bffffff 1d000000 1800 0506 01000000 39300000 06000100 6e6f0000 08000200 2c000000' \
  >"$folder/answer"
cat "$folder/answer" "$folder/done" "$folder/answer" >"$folder/answers"
of_answer='RTM_NEWROUTE refused: ENETUNREACH, no, attribute at 44'
refuse_each 'errors of the kernel, explained' 0 "$folder/answers" check --explain
check 'errors of the kernel, explained, their lines' \
  cmp -s "$folder/found.errors" <(printf "rtnl: datagram %s: $of_answer\n" 1 3)
refuse_each 'an error of the kernel, explained, of a table' 1 "$folder/answers" \
  table --kind link --seq 1 --port 12345 --explain
check 'an error of the kernel, explained, of a table, its line' \
  cmp -s "$folder/found.errors" <(echo "rtnl: datagram 1: $of_answer")

# follow_each NAME STATUS INPUT [ARGUMENT..]: each growth of following this input, of more datagrams than one.
follow_each() {
  local name=$1
  refuse_each "$name" "$2" "$3" follow "${@:4}"
  # Where most growths are left out, it may be none of those that were refused.
  [ "$share" -gt 0 ] || check "$name, some datagrams were written before memory ran out" [ "$begun" -gt 0 ]
}

refuse_each 'a DONE, followed' 0 "$folder/done" follow
check 'a DONE, followed, its text' cmp -s "$folder/done.text" "$folder/found.output"
follow_each 'examples/routes.hex, followed' 0 examples/routes.hex
check 'examples/routes.hex, followed, its datagrams' [ "$(grep -c '^datagram ' "$folder/found.output")" = 3 ]
follow_each 'examples/routes.hex, followed in colours' 0 examples/routes.hex --color always
follow_each 'examples/routes.hex, followed in JSON' 0 examples/routes.hex --format json
follow_each 'examples/routes.hex, followed in bytes' 0 examples/routes.hex --bytes
of_routes=(--kind route --seq 1011 --port 19261)
follow_each 'a dump, followed' 0 examples/routes.hex "${of_routes[@]}"
check 'a dump, followed, its end' [ "$(tail -n 1 "$folder/found.output")" = 'complete yes' ]
follow_each 'a dump, followed in JSON' 0 examples/routes.hex "${of_routes[@]}" --format json
cat "$folder/done" "$addresses" >"$folder/two"
follow_each "a DONE and $addresses, followed in bytes, in JSON" 0 "$folder/two" --bytes --format json
# A datagram of 10,000 zeros, whose line comes by many reads.
{ cat "$folder/done" && head -c 20000 /dev/zero | tr '\0' 0 && echo && cat "$folder/done"; } >"$folder/long"
follow_each 'a long line, followed' 1 "$folder/long"
check 'a long line, followed, its datagrams' [ "$(grep -c '^datagram ' "$folder/found.output")" = 3 ]
{ cat "$folder/bad" && cat "$addresses" && echo 123; } >"$folder/some_bad"
follow_each 'bad lines, followed' 1 "$folder/some_bad"
check 'bad lines, followed, their names' \
  cmp -s "$folder/found.errors" <(printf 'rtnl: line %s: bad line\n' 1 "$(($(wc -l <"$addresses") + 2))")
follow_each 'bad lines, followed and explained' 1 "$folder/some_bad" --explain
refuse_each 'a bad line, followed strictly' 1 "$folder/bad" follow --strict
refuse_each 'a missing file, followed' 3 /dev/null follow "$folder/missing"
refuse_each 'help of follow' 0 /dev/null follow --help
refuse_each 'a depth of follow out of its range' 2 /dev/null follow --depth 33

# mirror_each NAME STATUS INPUT [ARGUMENT..]: each growth of keeping tables by this input.
mirror_each() { refuse_each "$1" "$2" "$3" mirror "${@:4}"; }

mirror_each 'tables' 0 examples/mirror.hex
check 'tables, their ends' [ "$(grep -c ' current yes$' "$folder/found.output")" = 5 ]
mirror_each 'tables in JSON' 0 examples/mirror.hex --format json
mirror_each 'changes' 0 examples/mirror.hex --changes
check 'changes, some were written' [ "$begun" -gt 0 ]
check 'changes, their signs' [ "$(grep -c '^[-+~=] ' "$folder/found.output")" = 17 ]
mirror_each 'changes in JSON' 0 examples/mirror.hex --changes --format json
# Another dump while changes wait for the end of one, a dump that is refused, and a datagram that is.
told=$(sed 's/0200 01000000 39300000/0000 00000000 00000000/' <<<"$link")
printf '%s\n' '# seq 1 port 12345 kind link' "$told" "$link" '# seq 2 port 12345 kind link' "$told" \
  "$finish_hex" "${finish_hex/01000000/02000000}" '# seq 2 port 1 kind rule' "$link 14000000 0300 0200 0100" \
  >"$folder/amid"
mirror_each 'changes that wait' 1 "$folder/amid" --kind link --changes
check 'changes that wait, the end' [ "$(tail -n 1 "$folder/found.output")" = '? link refused' ]
mirror_each 'changes that wait, in JSON' 1 "$folder/amid" --kind link --format json
mirror_each 'bad lines, explained, of a mirror' 1 "$folder/some_bad" --explain
refuse_each 'a missing file of a mirror' 3 /dev/null mirror "$folder/missing"
refuse_each 'help of mirror' 0 /dev/null mirror --help
refuse_each 'a limit of mirror out of its range' 2 /dev/null mirror --waiting 4294967296

# ---- each call of the libraries

if [ -z "${RTNL_PROGRAM-}" ]; then
  program=crates/rtnl_rows/out/rtnl_rows
  check 'the functions that ask for memory, of the calls' asks_by_counted_functions
  tests/refuse/calls.py "$library" >"$folder/calls"
  head -n -1 "$folder/calls"
  # Its cases count with these; where it has no last line, that is one that failed.
  if [[ $(tail -n 1 "$folder/calls") =~ ^([0-9]+)\ passed,\ ([0-9]+)\ failed$ ]]; then
    passed=$((passed + BASH_REMATCH[1])) failed=$((failed + BASH_REMATCH[2]))
  else
    check 'the calls are tried' false
  fi
else
  echo 'skipped: the calls of the libraries, which rt ci proves and builds'
fi

finish
