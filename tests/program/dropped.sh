# Lines of a recording that say that messages were dropped, read in by ../program.sh.

# dropped NUMBER..: what is said of the lines of these numbers.
dropped() { printf 'rtnl: line %d: messages were dropped here\n' "$@"; }

nothing_but_the_end='dump link seq 1 port 12345
end done 0
entries 0 missed 0 ignored 0 unfed 0 damaged no interrupted no
received 20 visits 0
complete yes'

# Twelve lines, of which six say so.
{
  printf '# dropped\n%s\n# note\n' "$finish"
  printf '# dropped: the kernel had no room for messages here\n\n'
  printf '# dropped 7\n# dropped\t\n# dropped\r\n'
  printf '#dropped\n# droppeds\n# Dropped\n# dropped:'
} >"$folder/lossy"
lossy=$(dropped 1 4 6 7 8 12)
expect 'dropped, shown' 0 "$finish_text" "$lossy" show <"$folder/lossy"
expect 'dropped, without a command' 0 "$finish_text" "$lossy" <"$folder/lossy"
expect 'dropped, a FILE' 0 "$finish_text" "$lossy" show "$folder/lossy"
expect 'dropped, in JSON' 0 "$any" "$lossy" show --format json "$folder/lossy"
expect 'dropped, as bytes' 0 "$any" "$lossy" show --bytes "$folder/lossy"
expect 'dropped, explained' 0 "$finish_text" "$lossy" show --explain "$folder/lossy"
expect 'dropped, checked' 0 'datagram 1 canonical' "$lossy" check "$folder/lossy"
expect 'dropped, checked in JSON' 0 "$any" "$lossy" check --format json --explain "$folder/lossy"
expect 'dropped, tabled' 0 "$nothing_but_the_end" "$lossy" "${links[@]}" "$folder/lossy"
expect 'dropped, tabled in JSON' 0 "$any" "$lossy" "${links[@]}" --format json --explain "$folder/lossy"
expect 'dropped, followed' 1 "$finish_text" "$lossy" follow <"$folder/lossy"
expect 'dropped, followed, explained' 1 "$finish_text" "$lossy" follow --explain "$folder/lossy"
expect 'dropped, followed in JSON' 1 "$finish_json" "$lossy" follow --format json "$folder/lossy"
expect 'dropped, followed as bytes' 1 "$any" "$lossy" follow --bytes "$folder/lossy"

# The mark on one byte, and nothing that only looks like it.
expect 'dropped, the last bytes' 1 '' "$(dropped 1)" follow < <(printf '# dropped')
expect 'dropped, cut' 0 '' '' follow < <(printf '# droppe')
expect 'dropped, in the middle of a comment' 0 '' '' follow < <(printf '## dropped\n# a # dropped\n#\n')
expect 'dropped behind a blank, which is a bad line' 1 '' "$bad_first_line" follow <<<' # dropped'
for behind in a . - _ 0 $'\f' $'\xc2\xa0' $'\xff'; do
  expect "dropped, and ${behind@Q} behind it" 0 '' '' follow <<<"# dropped$behind"
done
expect 'dropped, and a zero byte behind it' 0 '' '' follow < <(printf '# dropped\0\n')

# Each is said in its place: behind the bad lines before it, and not where nothing is read.
expect 'dropped between bad lines' 1 '' "$bad_first_line
$(dropped 2)
rtnl: line 3: bad line
$(dropped 4)" follow < <(printf '%s\n' zz '# dropped' zz '# dropped')
expect 'dropped behind the end of what is followed' 1 '' "$bad_first_line" \
  follow --strict < <(printf '%s\n' zz '# dropped')
expect 'dropped behind the end of a dump' 0 "$nothing_but_the_end" '' follow "${links[@]:1}" \
  < <(printf '%s\n' "$finish" '# dropped')
expect 'dropped before the end of a dump' 1 "$nothing_but_the_end" "$(dropped 1)" follow "${links[@]:1}" \
  < <(printf '%s\n' '# dropped' "$finish")
expect 'dropped, and a bad line' 1 '' "$(dropped 1)
rtnl: line 2: bad line" show < <(printf '%s\n' '# dropped' zz)

# said_between: what is said stands between the texts of the datagrams around it.
said_between() {
  [ "$("$program" follow 2>&1 < <(printf '%s\n' "$finish" '# dropped' "$finish"))" = "$finish_text
$(dropped 2)
datagram 2 bytes 20
$finish_message" ]
}
check 'dropped between two datagrams' said_between

# A line lies over many reads, of 8,192 bytes each: the mark at each place around the end of one.
for place in $(seq 8180 8193); do
  expect "dropped, behind $place bytes" 1 '' "$(dropped 2)" follow \
    < <(comment "$place" && echo '# dropped: here')
done
# said_often N FILE: it is said of each of the lines 1 to N, and the status is 1.
said_often() {
  "$program" follow "$2" >"$folder/output" 2>"$folder/errors"
  [ $? = 1 ] && [ ! -s "$folder/output" ] &&
    cmp -s "$folder/errors" <(seq 1 "$1" | sed 's/.*/rtnl: line &: messages were dropped here/')
}
yes '# dropped' | head -n 100000 >"$folder/many_lossy"
check 'dropped a hundred thousand times' said_often 100000 "$folder/many_lossy"
