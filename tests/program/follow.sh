# Cases of `follow`, read in by ../program.sh.

expect 'follow, standard input' 0 "$finish_text" '' follow <<<"$finish"
expect 'follow FILE' 0 "$loopback_text" '' follow "$folder/link" <<<"$finish"
expect 'follow -' 0 "$finish_text" '' follow - <<<"$finish"
expect 'follow ./-, which is a file' 3 '' "$(unread ./- "$missing")" follow ./- <<<"$finish"
expect 'follow behind the end of options' 0 "$loopback_text" '' follow -- "$folder/link" </dev/null
expect 'follow nothing' 0 '' '' follow </dev/null
expect 'follow, order big' 0 "$loopback_text" '' follow --order big <<<"$loopback_big"
expect 'follow, order big, FILE' 1 "$loopback_refused" '' follow --order=big "$folder/link"
expect 'follow, a link that is refused between two' 1 "$finish_text
datagram 2 bytes 52
refused bad length at 32
datagram 3 bytes 20
$finish_message" '' follow < <(printf '%s\n' "$finish" "$short_attribute" "$finish")
expect 'follow, a datagram too large' 1 $'datagram 1 bytes 65537\nrefused too large' '' follow \
  < <(zeros 65537)

# ---- its forms

expect 'follow, JSON' 0 "$finish_json" '' follow --format json <<<"$finish"
expect 'follow, JSON, refused' 1 '{"datagram":1,"refused":"bad length","at":32}' '' \
  follow --format=json <<<"$short_attribute"
expect 'follow, bytes' 0 "$loopback_bytes" '' follow --bytes "$folder/link"
expect 'follow, bytes without colours' 0 "$loopback_bytes" '' follow --bytes --color never \
  <<<"$loopback"

# ---- how deep it goes: each of the nine lists is 4 bytes behind the one that holds it

expect 'follow, the standard depth' 1 $'datagram 1 bytes 68\nrefused too deep at 64' '' \
  follow <<<"$nine_lists"
expect 'follow, depth 0' 1 $'datagram 1 bytes 68\nrefused too deep at 32' '' \
  follow --depth 0 <<<"$nine_lists"
expect 'table, depth 0' 1 'dump link seq 1 port 12345
datagram 1 refused too deep at 32
end none
entries 0 missed 0 ignored 0 unfed 0 damaged yes interrupted no
received 68 visits 36
complete no' '' "${links[@]}" --depth 0 <<<"$nine_lists"
expect 'follow, depth 0, no list' 0 "$loopback_text" '' follow --depth 0 <<<"$loopback"
expect 'follow, depth 9' 0 'datagram 1 bytes 68
message 16 newlink flags 0x0002 MULTI seq 1 port 12345
  link family 0 type 0 index 0 flags 0x00000000 - change 0x00000000
    attr 1 ADDRESS nested list 1
      attr 1 - nested list 1
        attr 1 - nested list 1
          attr 1 - nested list 1
            attr 1 - nested list 1
              attr 1 - nested list 1
                attr 1 - nested list 1
                  attr 1 - nested list 1
                    attr 1 - nested list 0' '' follow --depth 9 <<<"$nine_lists"

# ---- lines that are no datagram, and bad ones, which are numbered over all lines

expect 'follow, comments and blank lines' 0 "$finish_text
datagram 2 bytes 20
$finish_message" '' follow \
  < <(printf '%s\n' '# seq 1 port 1' '' "$finish" $' \t\r' '#zz' "$finish" '#')
expect 'follow, no newline at the end' 0 "$finish_text" '' follow < <(printf '\n%s' "$finish")
expect 'follow, bad lines' 1 "$finish_text
datagram 2 bytes 20
$finish_message" 'rtnl: line 2: bad line
rtnl: line 5: bad line
rtnl: line 6: bad line' follow \
  < <(printf '%s\n' '# note' 0g "$finish" "$finish" 123 ' #' && printf '\n')
expect 'follow, a bad line without a newline' 1 "$finish_text" 'rtnl: line 2: bad line' \
  follow < <(printf '%s\nzz' "$finish")
expect 'follow, strictly' 1 "$finish_text" 'rtnl: line 2: bad line' follow --strict \
  < <(printf '%s\n' "$finish" zz zz "$finish")
expect 'follow, strictly, no bad line' 0 "$finish_text" '' follow --strict <<<"$finish"
printf '%s\n' zz "$loopback" >"$folder/some_bad"
expect 'follow, a bad line of a FILE' 1 "$loopback_text" \
  "$(bad_line 1 "$folder/some_bad")" follow "$folder/some_bad"
expect 'follow, a bad line of a FILE, strictly and explained' 1 '' \
  "rtnl: line 1: bad line
rtnl: $folder/some_bad: line 1, column 1: byte 0x7a is no hexadecimal digit" \
  follow --strict --explain "$folder/some_bad"
cp "$folder/some_bad" "$folder/$odd_name"
expect 'follow, a bad line of a FILE of an odd name' 1 "$loopback_text" \
  "$(bad_line 1 "$folder/$shown_name")" follow "$folder/$odd_name"
expect 'follow, the same, explained' 1 "$loopback_text" "rtnl: line 1: bad line
rtnl: $folder/$shown_name: line 1, column 1: byte 0x7a is no hexadecimal digit" \
  follow --explain "$folder/$odd_name"
check 'follow, a bad line that cannot be named' ends 1 "$loopback_text" '' \
  with_full_errors follow "$folder/some_bad"

# ---- a dump, whose ways to end are cases of ../follow.py

expect 'follow, a dump' 0 "dump link seq 1 port 12345
entry 1
$(tail -n +3 <<<"$loopback_text")
end done 0
entries 1 missed 0 ignored 0 unfed 0 damaged no interrupted no
received 68 visits 16
complete yes" '' follow "${links[@]:1}" < <(printf '%s\n' "$loopback" "$finish")
usage follow --kind link
usage follow --kind link --seq 1
usage follow --seq 1 --port 1
usage follow --kind link --seq +1 --port 1
usage follow "${links[@]:1}" --bytes
usage follow "${links[@]:1}" --entries 1

# ---- what can't be read or written

expect 'follow, a missing file' 3 '' "$(unread "$folder/missing" "$missing")" follow "$folder/missing"
expect 'follow, a missing file, explained' 3 '' "$(unread "$folder/missing" "$missing")" follow --explain "$folder/missing"
expect 'follow, a missing file of an odd name' 3 '' "$(unread "x$shown_name" "$missing")" \
  follow "x$odd_name"
expect 'follow, a folder as FILE' 3 '' "$(unread "$folder" "$is_folder")" follow "$folder" <<<"$finish"
expect 'follow, a folder as standard input' 3 '' "$(unread 'standard input' "$is_folder")" follow <"$folder"
check 'follow, standard input closed' ends 3 '' "$(unread 'standard input' "$closed")" from_closed_input follow
expect 'follow, a folder as standard input, explained' 3 '' "$(unread 'standard input' "$is_folder")" follow --explain <"$folder"
check 'follow, a full device' ends 3 '' "$full_device" into_full_device follow <<<"$finish"
check 'follow, a full device, explained' ends 3 '' "$full_device" \
  into_full_device follow --explain <<<"$finish"
check 'follow, standard output closed' ends 3 '' "$closed_output" \
  into_closed_output follow <<<"$finish"
rm -f "$folder/pipe"
check 'follow, a pipe that nobody reads' ends 3 '' "$no_reader" \
  into_pipe_without_reader follow <<<"$finish"
check 'follow, nothing for a full device' ends 0 '' '' into_full_device follow </dev/null
# More than may be taken as memory.
check 'follow, a long recording in little memory' ends 0 "$finish_text" '' in_little_memory follow \
  < <(yes '# a comment' | head -n 3000000 && echo "$finish")
check 'follow, out of memory' ends 4 "$finish_text" 'rtnl: out of memory' in_little_memory follow \
  < <(echo "$finish" && comment 16777217)

# ---- its arguments

expect 'help of follow' 0 "$any" '' follow --help <<<"$finish"
expect 'help of follow, as a command' 0 "$any" '' help follow <<<"$finish"
check 'help of follow, a full device' ends 3 '' "$full_device" \
  into_full_device follow --help </dev/null
usage follow a b
usage follow "$folder/link" "$folder/link"
usage follow --kind link
usage follow --seq 1
usage follow --entries 1
usage follow --version
for option in depth=33 depth=-1 depth=256 depth=+1 depth=-0 depth= order=middle format=xml \
  color=red bytes=yes strict=yes; do
  usage follow "--$option"
done
usage follow --depth
usage follow --order little --order big
# No other command has its option.
usage --strict
usage show --strict
usage check --strict
# Arguments are looked at before FILE is opened.
usage follow --depth 33 "$folder/missing"
