# What a standard output or error takes that doesn't wait where it is full, read in by ../program.sh.

for _ in $(seq 40); do cat examples/routes.hex; done >"$folder/many_routes"
yes "$finish" | head -n 30000 >"$folder/many_ends"
{ echo "$here kind link" && many_links 10000 && echo "$finish"; } >"$folder/many_entries"

# comes_through SORT ARGUMENT..: what the program prints into a pipe or a socket that doesn't wait is what it
# prints into a file, and more than either holds; and it ends alike.
comes_through() {
  local sort=$1 status
  shift
  "$program" "$@" >"$folder/wanted" 2>/dev/null
  status=$?
  ends "$status" "$any" '' tests/program/unwaited.py "$sort" "$program" "$@" &&
    [ "$(wc -c <"$folder/wanted")" -gt 500000 ] && cmp -s "$folder/output" "$folder/wanted"
}
for sort in pipe socket; do
  for command in show 'show --explain' 'show --bytes' 'show --format json' follow \
    'follow --format json'; do
    read -ra words <<<"$command"
    check "unwaited $sort: $command" comes_through "$sort" "${words[@]}" "$folder/many_routes"
  done
  check "unwaited $sort: check" comes_through "$sort" check "$folder/many_ends"
  check "unwaited $sort: table" comes_through "$sort" table --entries 10000 "$folder/many_entries"
  for command in 'mirror' 'mirror --changes' 'mirror --format json'; do
    read -ra words <<<"$command --kind link --entries 10000"
    check "unwaited $sort: $command" comes_through "$sort" "${words[@]}" "$folder/many_entries"
  done
done

# errors_come_through SORT: each of a hundred thousand bad lines is named.
errors_come_through() {
  ends 1 "$any" '' tests/program/unwaited.py "$1" --errors "$program" follow "$folder/many_bad" &&
    cmp -s "$folder/output" <(seq 100000 |
      sed "s|.*|rtnl: line &: bad line\\nrtnl: $folder/many_bad: bad line|")
}
yes zz | head -n 100000 >"$folder/many_bad"
check 'unwaited pipe: errors' errors_come_through pipe
check 'unwaited socket: errors' errors_come_through socket

# ends_without_reader COMMAND: one whose reader goes away while it is waited for ends with a write fault.
ends_without_reader() {
  ends 3 '' "$no_reader" tests/program/unwaited.py gone "$program" "$1" "$folder/many_routes"
}
check 'unwaited, without a reader: show' ends_without_reader show
check 'unwaited, without a reader: follow' ends_without_reader follow
