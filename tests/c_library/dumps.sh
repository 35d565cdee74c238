# Dumps from C, through sessions and streams: the recordings in both byte orders, a hundred
# thousand dumps against a second reading, a million routes, refused allocations, threads and
# valgrind.

tests/c_library/print_datagrams.py asked >"$folder/asked" || exit 1
while read -r name _; do
  for order in little big; do
    tests/c_library/print_datagrams.py "$name" "$order" >"$folder/${name//\//_}.$order" || exit 1
  done
done <"$folder/asked"

# each ORDER COMMAND..: the command passes for each recording, of which it gets FILE WORD KIND SEQ
# PORT: the file in this order, the family's word and type, and what its answers carry.
each() {
  local row
  while read -r -a row; do
    "${@:2}" "$folder/${row[0]//\//_}.$1" "${row[@]:1}" || return 1
  done <"$folder/asked"
}

# tables_so PROGRAM ORDER FILE WORD KIND SEQ PORT: it prints what `rtnl table` does, of the
# recording alone, among all and behind what is mutated, with room for all entries and for two.
tables_so() {
  local file entries
  cat "$folder/mutated.$2" "$3" >"$folder/behind"
  for file in "$3" "$folder/recorded.$2" "$folder/behind"; do
    for entries in 4096 2; do
      "$program" table --kind "$4" --seq "$6" --port "$7" --order "$2" --entries "$entries" \
        "$file" >"$folder/table"
      grep -q '^complete' "$folder/table" || return 1
      "$folder/$1" "$5" "$6" "$7" "$2" "$entries" <"$file" | cmp - "$folder/table" || return 1
    done
  done
}

# streams_so PROGRAM ORDER FILE WORD KIND SEQ PORT: a stream hands out what a session takes, of
# the same files.
streams_so() {
  local file
  cat "$folder/mutated.$2" "$3" >"$folder/behind"
  for file in "$3" "$folder/recorded.$2" "$folder/behind"; do
    "$folder/$1" "$5" "$6" "$7" "$2" <"$file" >"$folder/said" || return 1
    [[ $(<"$folder/said") == "$(wc -l <"$file") datagrams"* ]] || return 1
  done
}

# again PROGRAM ORDER FILE WORD KIND SEQ PORT: each allocation of a session is refused in turn,
# over some datagrams that are mutated and the recording.
again() {
  awk 'NR % 30 == 1' "$folder/mutated.$2" | cat - "$3" >"$folder/refused"
  "$folder/$1" "$5" "$6" "$7" "$2" <"$folder/refused" >>"$folder/refused.in.sessions"
}

# agree_so PROGRAM FILE WORD KIND SEQ PORT: threads come to what one comes to; the program is run
# by the words of `how`.
agree_so() { "${how[@]}" "$folder/$1" "$4" "$5" "$6" <"$2" >"$folder/said"; }

# clean FILE WORD KIND SEQ PORT: valgrind sees no leak and no wrong access.
clean() {
  "${see[@]}" "$folder/session plain" "$3" "$4" "$5" little 4096 <"$1" >"$folder/said" &&
    "${see[@]}" "$folder/stream plain" "$3" "$4" "$5" little <"$1" >"$folder/said"
}

# dumps COUNT COMMAND..: so many dumps in each byte order.
dumps() { tests/c_library/dumps.py "$@" >"$folder/dumps.said" || ! cat "$folder/dumps.said"; }

# all_dumps NAME COUNT COMMAND..: each program of dumps by this compiler, built and run.
all_dumps() {
  local name=$1 order how=()
  check "$name: session.c" built session "session $name" "${@:3}"
  check "$name: stream.c" built stream "stream $name" "${@:3}"
  check "$name: session_refused.c" built session_refused "session_refused $name" "${@:3}" "$wraps"
  for order in little big; do
    check "$name: tables of a session, $order" each "$order" tables_so "session $name" "$order"
    check "$name: items of a stream, $order" each "$order" streams_so "stream $name" "$order"
    check "$name: a session's allocations refused, $order" \
      each "$order" again "session_refused $name" "$order"
  done
  check "$name: dumps.c" built dumps "dumps $name" "${@:3}"
  check "$name: mutated dumps" dumps "$2" "$folder/dumps $name"
  check "$name: session_threads.c" built session_threads "session_threads $name" "${@:3}"
  check "$name: sessions in threads" each little agree_so "session_threads $name"
}

count=50000
whole '98,000 of 100,000 dumps' || count=1000
all_dumps plain "$count" cc -std=c99
echo "mutated: $(<"$folder/dumps.said")"
whole 'dumps with sanitizers' && all_dumps 'with sanitizers' 2500 \
  cc -std=c99 -fsanitize=address,undefined -fno-sanitize-recover=all
awk '{ sum += $1 } END { print "allocations of sessions refused: " sum }' \
  "$folder/refused.in.sessions"

check 'million.c' built million million cc -std=c99
check 'a million routes in constant space' quietly "$folder/million"
check 'colliding.c' built colliding colliding cc -std=c99
check 'keys that were chosen to collide' "$folder/colliding"

under='sessions and streams under valgrind'
if whole "$under" && has valgrind "$under"; then
  see=(valgrind -q --leak-check=full --error-exitcode=9)
  check 'valgrind: sessions and streams' each little clean
  check 'valgrind: wrong uses' "${see[@]}" "$folder/misuse plain"
  check 'valgrind: room' "${see[@]}" "$folder/room plain"
  check 'valgrind: mirrors' "${see[@]}" "$folder/mirror plain"
  check 'valgrind: mutated dumps' dumps 1000 "${see[@]}" "$folder/dumps plain"
  how=(valgrind -q --tool=helgrind --error-exitcode=9)
  check 'helgrind: sessions in threads' each little agree_so 'session_threads plain'
fi
if [ "$thread_sanitizer" = yes ]; then
  how=()
  check 'session_threads.c under ThreadSanitizer' \
    built session_threads session_threads cc -std=c99 -fsanitize=thread
  check 'sessions in threads under ThreadSanitizer' each little agree_so session_threads
fi
