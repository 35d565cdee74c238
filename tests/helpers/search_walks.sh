#!/usr/bin/env bash
# search_walks.sh FOLDER: looks through the sources of all crates in a folder, but for the tests and the examples of
# callers, for a walk over attribute bytes beside that of a reading and that of a scan, for one of these that
# is made twice, or for one that isn't counted. It prints what it finds, and its status is then 1.
set -u
cd "$1" || exit 1
found=0

# code FILE..: the lines of code, each behind its file's name.
code() { grep -HvE '^[[:space:]]*//' "$@"; }

sources() {
  find crates -path '*/src/*.rt' -not -path '*/out/*' -not -path 'crates/rtnl_rows/*' \
    -not -path 'crates/rtnl_uses/*' | LC_ALL=C sort
}

# lines PATTERN [FILE..]: the lines of code with it, in these files or in all.
lines() {
  local pattern=$1
  shift
  [ $# -gt 0 ] || set -- $(sources)
  code "$@" | grep -E -e "^[^:]*:.*($pattern)"
}

# counts PATTERN [FILE..]: each file that has such lines, and how many.
counts() { lines "$@" | cut -d: -f1 | LC_ALL=C sort | uniq -c | sed -E 's/^ +([0-9]+) (.*)$/\2 \1/'; }

# within PATTERN FILE: the function of each line of code with it.
within() {
  code "$2" | awk -v pattern="$1" '
    match($0, /fn [a-z_]+/) { name = substr($0, RSTART + 3, RLENGTH - 3) }
    $0 ~ pattern { print name }'
}

# same WHAT FOUND WANTED
same() {
  [ "$2" = "$3" ] && return
  found=1
  printf '%s\n' "not so: $1" "$2"
}

folder=crates/nl_attr/src/stack
stack=($folder/*.rt)
reading=crates/nl_attr/src/reading.rt

same 'walkers are made in their own modules, and where payloads are shown by what they mean' \
  "$(counts '\b(Attrs|HopParts)::of')" \
  'crates/nl_attr/src/walk/attrs.rt 1
crates/nl_attr/src/walk/counted.rt 1
crates/nl_attr/src/walk/hops.rt 1
crates/rtnl/src/bytes/inside.rt 1
crates/rtnl/src/json_lines/data/inside.rt 1
crates/rtnl/src/json_lines/data/kinds.rt 1'

same 'counted walks are made where a region is opened, and for the blank of the stack' \
  "$(counts 'Counted(Attrs|HopParts)::over')" "$folder/mod.rt 1
$folder/nested.rt 1
$folder/regions.rt 2"

same 'regions are opened by those who then read them' "$(counts '\b(list_of|hops_of)\(' "${stack[@]}")" \
  "$folder/mod.rt 2
$folder/nested.rt 2
$folder/next_hops.rt 1"

same 'a counted walk is stepped with the count of its reading' "$(lines '\.step\(' | sed 's/^[^:]*: *//')" \
  'match walk.step(visits) {
let part = match region.walk.step(visits) {'

# That of attributes takes them by itself.
same 'only a counted walk steps a walker' \
  "$(counts '\.next\(\)' $(sources | grep '^crates/nl_attr/'))" \
  'crates/nl_attr/src/walk/counted.rt 1'

same 'the count of a reading is handed on, never made' \
  "$(lines '\b(let|if|for|while)\b.*\bvisits\b' "${stack[@]}" "$reading" |
    grep -vE ' match ((region\.)?walk\.step\(|[a-z_]+\([^()]*, )visits\) \{$| let next = (open|close)\([^()]*, visits\)\?;$')" \
  "$reading:    let mut visits: u64 = 0;
$reading:    let result = read_region(alloc, bytes, base, ctx, level, shape, &mut visits);"

same 'each call that reads a region is handed the count' \
  "$(lines '\b(read_(attrs|hops|nested|on|ordered|region|walk)|next_hop|go_on_hops|open|close)\(' "${stack[@]}" |
    grep -vE '\bfn |[( ]visits\)')" ''

same 'those who read regions look at none of their bytes' \
  "$(lines '\b(bytes|payload|rest|left|region)(\[|\.(iter|get|first|last|split|chunks|windows|copied|to_))' \
    "${stack[@]}" "$reading")" ''

same 'lengths and types of attributes and next hops are read by the walkers alone, but for the length of the head at which a scan ends, what is printed beside bytes, and what payloads mean; the front of a message reads its type, and a stream its flags' \
  "$(counts 'read_u16\(')" \
  'crates/nl_attr/src/broken.rt 1
crates/nl_attr/src/order.rt 3
crates/nl_attr/src/views.rt 1
crates/nl_attr/src/walk/mod.rt 2
crates/nl_dump/src/unread.rt 1
crates/nl_frame/src/front.rt 1
crates/nl_frame/src/header.rt 2
crates/nl_route/src/ifinfomsg.rt 1
crates/nl_route/src/ndmsg.rt 1
crates/nl_values/src/numbers.rt 5
crates/nl_values/src/rows.rt 1
crates/rtnl/src/bytes/json_lines.rt 2
crates/rtnl/src/bytes/notation.rt 5
crates/rtnl/src/bytes/view.rt 1
crates/rtnl/src/names/values.rt 1'

scan=(crates/nl_attr/src/scanning.rt crates/nl_attr/src/taping/*.rt)
taping=crates/nl_frame/src/taping.rt

same 'heads are read by the walkers, by a scan at one place for each sort of head, and at its end' \
  "$(counts '\b(head_len|len_at|kind_at|span_at)\(')" \
  'crates/nl_attr/src/broken.rt 1
crates/nl_attr/src/taping/fronts.rt 3
crates/nl_attr/src/taping/leaves.rt 2
crates/nl_attr/src/taping/steps.rt 2
crates/nl_attr/src/walk/attrs.rt 3
crates/nl_attr/src/walk/counted.rt 5
crates/nl_attr/src/walk/hops.rt 2
crates/nl_attr/src/walk/mod.rt 5'

# The room for a datagram's messages is made by the length of the first.
same 'headers are read at the front of a message, where an error quotes one, at the end of a scan, and for room; a scan asks for the length first' \
  "$(counts '\b(frame_len|Header::read)\(')" \
  'crates/nl_frame/src/body.rt 1
crates/nl_frame/src/broken.rt 1
crates/nl_frame/src/front.rt 3
crates/nl_frame/src/reading.rt 1
crates/nl_frame/src/taping.rt 1'

same 'a message is taken from the front once by a reading, a scan and a cursor' \
  "$(counts '\bfront(_of|_form)?\(' $(sources | grep '^crates/nl_frame/'))" \
  'crates/nl_frame/src/front.rt 5
crates/nl_frame/src/reading.rt 1
crates/nl_frame/src/taping.rt 2'

# The first goes past heads at the front of a region, and the others past those at which it ended.
same 'a scan is one loop over heads that hold bytes, one over the others, one over next hops, one over what opens more levels, and one over messages' \
  "$(lines '\b(loop|while|for)\b([^<]|<[ =])*\{$' "${scan[@]}" crates/nl_frame/src/scanning.rt "$taping" |
    sed 's/^[^:]*: *//')" \
  "'leaves: while behind <= isize::MAX as usize {
'heads: loop {
'hops: loop {
'heads: loop {
'messages: while !left.is_empty() {"

same 'a region is scanned by the calls that are made for it, once by the scan of a message and once where a payload may be a list, and in no reading' \
  "$(counts '\b(scan_list_ordered|tape_(list|attrs|attrs_in|region|regions|open|deep|inside|inner|hops)|open_regions|pass_(top|front|leaves|like)|step_(attr|hop))\b.*\(')" \
  'crates/nl_attr/src/scanning.rt 2
crates/nl_attr/src/taping/leaves.rt 5
crates/nl_attr/src/taping/mod.rt 9
crates/nl_attr/src/taping/regions.rt 20
crates/nl_attr/src/taping/steps.rt 8
crates/nl_frame/src/taping.rt 1
crates/nl_values/src/reading.rt 1'

same 'a datagram is scanned by the calls that are made for it, and in no reading' \
  "$(counts '\b(scan_datagram|tape_datagram|scan_messages|tape_(messages?|ordered|little|big|ample|front|frame|body|object))(::)?(<[^(]*>)?\(')" \
  'crates/nl_dump/src/events.rt 1
crates/nl_frame/src/scanning.rt 4
crates/nl_frame/src/taping.rt 24
crates/rtnl/src/bytes/tape.rt 1
crates/rtnl_c/src/broken.rt 1
crates/rtnl_c/src/scan.rt 2'

same 'a scan of a datagram adds the visits of each message, and nothing else' \
  "$(lines '\bvisits [-+*]?=' "$taping" | sed 's/^[^:]*: *//')" 'let mut visits = 0u64;
visits += taped.counts.visits;'

same 'the item at a place is sought by those who ask for one, and in no walk' \
  "$(counts '\b(attr_at|hop_at|message_at)\(')" \
  'crates/nl_attr/src/walk/cursors.rt 2
crates/nl_dump/src/unread.rt 1
crates/nl_frame/src/front.rt 1
crates/rtnl_c/src/cursors.rt 3
crates/rtnl_cli/src/senders.rt 1'

same 'an attribute of a number is sought for C by one loop over what stands at a place' \
  "$(counts '\brtnlc_attr_at\(')" \
  'crates/rtnl_c/src/cursors.rt 1
crates/rtnl_c/src/find.rt 2'

# A seed is of no datagram.
same 'numbers are made of bytes by their order alone' \
  "$(lines 'from_(le|be|ne)_bytes|(Little|Big|Native)Endian' |
    grep -vE '^crates/(nl_attr/src/order|nl_table/src/seed|nl_values/src/numbers)\.rt:')" ''

same 'calls that answer a tally' "$(counts '-> Tally<')" \
  'crates/nl_attr/src/fault.rt 2
crates/nl_attr/src/reading.rt 2
crates/nl_attr/src/scanning.rt 1
crates/nl_dump/src/events.rt 1
crates/nl_dump/src/items.rt 1
crates/nl_dump/src/tables.rt 1
crates/nl_frame/src/body.rt 3
crates/nl_frame/src/reading.rt 3
crates/nl_frame/src/scanning.rt 1
crates/nl_mirror/src/mirror.rt 2
crates/nl_route/src/object.rt 2'

same 'a tally is ended without its visits by those who answer none' "$(counts '\.into_result\(')" \
  'crates/nl_frame/src/canonical.rt 1
crates/rtnl/src/bytes/tape.rt 1
crates/rtnl/src/runs/mirror.rt 1
crates/rtnl/src/runs/show.rt 2
crates/rtnl_bench/src/main.rt 1
crates/rtnl_c/src/broken.rt 1
crates/rtnl_cli/src/errors_told.rt 1'

same 'a tally is taken apart with its visits' "$(counts 'visits: *_')" 'crates/nl_attr/src/fault.rt 1'

same 'each reading calls the one below it once' \
  "$(counts '(\bread_(region|list|list_ordered|body|body_ordered|message|messages|datagram)\(|Body::read\()' |
    grep -v rtnl_bench)" \
  'crates/nl_attr/src/reading.rt 4
crates/nl_attr/src/stack/mod.rt 1
crates/nl_dump/src/items.rt 1
crates/nl_frame/src/canonical.rt 1
crates/nl_frame/src/reading.rt 6
crates/nl_mirror/src/mirror.rt 1
crates/nl_route/src/object.rt 4
crates/rtnl/src/runs/mirror.rt 1
crates/rtnl/src/runs/show.rt 2
crates/rtnl_cli/src/errors_told.rt 1'

same 'all families are read by one arm of a macro' "$(counts 'read_body_ordered \$')" \
  'crates/nl_route/src/family.rt 1'

same 'a datagram is checked by a check alone' "$(counts '\bis_canonical\(')" \
  'crates/nl_frame/src/canonical.rt 1
crates/rtnl/src/runs/check.rt 2
crates/rtnl_c/src/check.rt 1'

same 'a session hands on the visits of each datagram that it takes or refuses' \
  "$(lines 'visits [-+*]?= |standing\.(take|refuse)\(|[^_a-z](read|read_items)\(' \
    crates/nl_dump/src/session.rt | sed 's/^[^:]*: *//')" \
  'let Tally { result, visits } = self.tables.read(self.alloc, limits, &dump, bytes);
self.standing.take(dump, count, visits, &taken);
self.standing.refuse(count, visits);'

same 'the items of a datagram are read for a table once' \
  "$(counts '[^_a-z]read_items\(')" \
  'crates/nl_dump/src/items.rt 1
crates/nl_dump/src/stream.rt 1
crates/nl_dump/src/tables.rt 1'

same 'a stream hands on the visits of each datagram that it takes or refuses, by either call' \
  "$(lines 'visits [-+*]?= |standing\.(take|refuse)\(|[^_a-z](read_events|read_items)\(' \
    crates/nl_dump/src/stream.rt | sed 's/^[^:]*: *//')" \
  'let Tally { result, visits } = read_events(&self.standing.limits, &dump, bytes, out);
self.standing.take(dump, count, visits, &taken);
self.standing.refuse(count, visits);
let Tally { result, visits } = read_items(alloc, &self.standing.limits, &dump, bytes);
self.standing.take(dump, count, visits, &taken);
self.standing.refuse(count, visits);'

same 'they are added, and nothing else' \
  "$(lines 'visits [-+*]?= ' crates/nl_dump/src/standing.rt | sed 's/^[^:]*: *//')" \
  'self.visits += visits;
self.visits += visits;'

same 'the datagrams of a table are read by the session alone, and those for C by a session or a stream' \
  "$(counts '\.feed\(')" \
  'crates/rtnl/src/runs/table.rt 1
crates/rtnl_c/src/session.rt 1
crates/rtnl_c/src/stream.rt 1
crates/rtnl_cli/src/explain.rt 1'

same 'a mirror reads a datagram once, for its own call or for C' \
  "$(counts '\b(self|mirror)\.read\(bytes\)')" \
  'crates/nl_mirror/src/mirror.rt 1
crates/rtnl_c/src/hearing.rt 1'

exit "$found"
