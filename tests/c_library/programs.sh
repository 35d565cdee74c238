# The programs in this folder, built and run.

whole 'nine of ten mutations'
for order in little big; do
  for sort in recorded mutated; do
    tests/c_library/print_datagrams.py "$sort" "$order" >"$folder/$sort.$order" || exit 1
    "$program" check --order "$order" "$folder/$sort.$order" >"$folder/check.$sort.$order"
    "$program" show --order "$order" "$folder/$sort.$order" >"$folder/show.$sort.$order"
    "$program" show --format json --order "$order" "$folder/$sort.$order" \
      >"$folder/json.$sort.$order"
  done
done

warnings=(-D_GNU_SOURCE -Iinclude -O1 -g -Wall -Wextra -Werror -pedantic)
wraps=-Wl,--wrap=malloc,--wrap=calloc,--wrap=realloc,--wrap=free

# built NAME TO COMMAND..: a program of this folder by this compiler.
built() {
  "${@:3}" "${warnings[@]}" "tests/c_library/$1.c" -x none "$archive" -o "$folder/$2" -pthread
}

# sees_all PROGRAM FILE [ARGUMENT..]: it ends well, and says how many datagrams the file has.
sees_all() {
  "$folder/$1" "${@:3}" <"$2" >"$folder/said" &&
    [[ $(<"$folder/said") == "$(wc -l <"$2") datagrams"* ]]
}

# prints_so PROGRAM COMMAND SORT ORDER: the program prints what rtnl does.
prints_so() { "$folder/$1" "$2" "$4" <"$folder/$3.$4" | cmp - "$folder/$2.$3.$4"; }

# compares PROGRAM SORT ORDER: it finds no difference in any datagram, and has seen all.
compares() { sees_all "$1" "$folder/$2.$3" compare "$3"; }

# every PROGRAM: all cases of every.c.
every() {
  local order sort command
  for order in little big; do
    for sort in recorded mutated; do
      for command in check show json; do
        check "$1: $command of $sort datagrams, $order" prints_so "$1" "$command" "$sort" "$order"
      done
      check "$1: calls on $sort datagrams, $order" compares "$1" "$sort" "$order"
    done
  done
}

# refuses PROGRAM: each allocation is refused in turn, of the recordings and of some that are
# mutated.
refuses() {
  cat "$folder/recorded.little" <(head -n 200 "$folder/mutated.little") >"$folder/refused"
  sees_all "$1" "$folder/refused" && cp "$folder/said" "$folder/refusals"
}

# agree PROGRAM: threads at once come to what one comes to.
agree() {
  cat "$folder/recorded.little" <(head -n 300 "$folder/mutated.little") >"$folder/shared"
  sees_all "$1" "$folder/shared"
}

# quietly COMMAND..: what it prints is not shown.
quietly() { "$@" >"$folder/said"; }

stays_in_stack() {
  head -n 200 "$folder/mutated.little" | cat - "$folder/recorded.little" >"$folder/measured" &&
    "$folder/$1" <"$folder/measured" >"$folder/stack.found"
}

# finds PROGRAM SORT ORDER: it finds what a walk finds in every region.
finds() { sees_all "$1" "$folder/$2.$3" "$3"; }

# hears PROGRAM SORT ORDER: mirrors hear all messages as notifications, and are as a model is.
hears() { sees_all "$1" "$folder/$2.$3" "$3"; }

# says_version PROGRAM: the library's version is the program's.
says_version() { [ "rtnl $("$folder/$1")" = "$("$program" --version)" ]; }

# names_so PROGRAM: the names of attributes are those on docs/FORMAT.md, all of them.
names_so() {
  "$folder/$1" | sort >"$folder/named" &&
    sed -nE 's/^\| .*`(.*_)` \| ([0-9]+) \| `(.*)` \| .*/\1 \2 \1\3/p' docs/FORMAT.md |
    awk 'BEGIN { split("IFLA_ IFLA_INFO_ IFA_ RTA_ RTAX_ NDA_ FRA_", prefixes)
           for (it in prefixes) contexts[prefixes[it]] = it }
         { print contexts[$1], $2, $3 }' | sort | diff "$folder/named" -
}

# all_programs NAME COMMAND..: each program by this compiler, built and run.
all_programs() {
  local name=$1 order sort program_name
  shift
  check "$name: every.c" built every "every $name" "$@"
  every "every $name"
  check "$name: fixed.c" built fixed "fixed $name" "$@"
  check "$name: fixed.c runs" "$folder/fixed $name"
  check "$name: refused.c" built refused "refused $name" "$@" "$wraps"
  check "$name: allocations refused" refuses "refused $name"
  check "$name: threads.c" built threads "threads $name" "$@"
  check "$name: threads at once" agree "threads $name"
  check "$name: find.c" built find "find $name" "$@"
  for order in little big; do
    for sort in recorded mutated; do
      check "$name: what is found in $sort datagrams, $order" finds "find $name" "$sort" "$order"
    done
  done
  check "$name: mirror_hears.c" built mirror_hears "mirror_hears $name" "$@"
  for order in little big; do
    for sort in recorded mutated; do
      check "$name: mirrors hear $sort datagrams, $order" \
        hears "mirror_hears $name" "$sort" "$order"
    done
  done
  check "$name: mirror_refused.c" built mirror_refused "mirror_refused $name" "$@" "$wraps"
  check "$name: a mirror's allocations refused" quietly "$folder/mirror_refused $name"
  for program_name in misuse room builder mirror; do
    check "$name: $program_name.c" built "$program_name" "$program_name $name" "$@"
    check "$name: $program_name.c runs" "$folder/$program_name $name"
  done
  check "$name: named.c" built named "named $name" "$@"
  check "$name: names of types and attributes" names_so "named $name"
  check "$name: words.c" built words "words $name" "$@"
  check "$name: names of codes, and the version" says_version "words $name"
}

all_programs plain cc -std=c99
whole 'the programs with sanitizers' && all_programs 'with sanitizers' \
  cc -std=c99 -fsanitize=address,undefined -fno-sanitize-recover=all
echo "allocations refused: $(<"$folder/refusals")"
check 'stack.c' built stack stack cc -std=c99
check 'the stack of each call' stays_in_stack stack
echo "stack: $(paste -sd, "$folder/stack.found")"

# Other versions of the languages.
for standard in c11 c17; do
  check "$standard: every.c" built every every cc "-std=$standard"
  check "$standard: fixed.c" built fixed fixed cc "-std=$standard"
  check "$standard: fixed.c runs" "$folder/fixed"
done
standards=(c++11 c++17 c++20)
whole 'most programs in C++11 and C++20' || standards=(c++17)
for standard in "${standards[@]}"; do
  for name in fixed threads stack find misuse room builder mirror mirror_hears named words session \
    stream session_threads dumps million; do
    check "$standard: $name.c" built "$name" "$name" c++ "-std=$standard" -x c++
  done
  for name in refused session_refused mirror_refused; do
    check "$standard: $name.c" built "$name" "$name" c++ "-std=$standard" "$wraps" -x c++
  done
  for name in fixed misuse room builder mirror words; do
    check "$standard: $name.c runs" quietly "$folder/$name"
  done
done
check 'c++11: every.c' built every every c++ -std=c++11 -x c++
check 'c++11: calls on recorded datagrams' compares every recorded little

# ThreadSanitizer sees c/rtnlc.c's callers and the C library's functions, not what the proved code
# reads.
echo 'int main(void) { return 0; }' >"$folder/try.c"
thread_sanitizer=no
if ! whole 'threads under ThreadSanitizer'; then
  :
elif cc -fsanitize=thread "$folder/try.c" -o "$folder/try" 2>/dev/null && "$folder/try"; then
  thread_sanitizer=yes
  check 'threads.c under ThreadSanitizer' built threads threads cc -std=c99 -fsanitize=thread
  check 'threads at once under ThreadSanitizer' agree threads
else
  echo 'skipped: threads under ThreadSanitizer, since cc has none'
fi
