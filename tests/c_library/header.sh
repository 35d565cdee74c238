# The header by itself: as C and as C++ of several versions, the macros that it leaves, its names,
# and what gcc says of wrong uses.

tests/helpers/install_packages.sh clang clang

# is_clean COMMAND..: this compiler takes the header alone, twice, without a word.
is_clean() {
  printf '#include <rtnlc.h>\n#include <rtnlc.h>\nint main(void) { return RTNLC_OK; }\n' \
    >"$folder/twice.c"
  "$@" -Iinclude -O2 -Wall -Wextra -pedantic -Wundef -Wconversion -Werror \
    -fsyntax-only "$folder/twice.c" 2>"$folder/output" && [ ! -s "$folder/output" ] ||
    ! cat "$folder/output"
}

# left_by COMMAND..: the macros that the header adds to those of what it includes.
left_by() {
  local header
  for header in stdbool stddef stdint; do echo "#include <$header.h>"; done >"$folder/before.c"
  echo '#include <rtnlc.h>' | cat "$folder/before.c" - >"$folder/behind.c"
  comm -13 <("$@" -Iinclude -dM -E "$folder/before.c" | sort) \
    <("$@" -Iinclude -dM -E "$folder/behind.c" | sort)
}

# leaves_constants COMMAND..: these are the guard and the constants of the header, and no others.
leaves_constants() {
  left_by "$@" >"$folder/left"
  grep -q '^#define RTNLC_STACK 32768$' "$folder/left" &&
    ! grep -vxE '#define RTNLC_(H ?|[A-Z]+(_[A-Z]+)? ([0-9]+|"[0-9.]+"))' "$folder/left"
}

# names_are_ours: every tag, enumerator and call has the library's prefix.
names_are_ours() {
  sed -E 's://.*::; s:/\*.*\*/::; /\/\*/,/\*\//d; /^#/d' include/rtnlc.h >"$folder/plain"
  grep -oE '\b(struct|enum) \w+|\b\w+\(|^	[A-Z]\w+' "$folder/plain" |
    sed -E 's/^(struct|enum) //; s/\($//; s/^	//' | sort -u >"$folder/found"
  grep -qx rtnlc_scan "$folder/found" && grep -qx RTNLC_END "$folder/found" &&
    grep -qx rtnlc_stream "$folder/found" && ! grep -vE '^(rtnlc|RTNLC)_' "$folder/found"
}

# warns WARNING TEXT: gcc says so of this body of a function, and without it nothing.
warns() {
  printf '#include <rtnlc.h>\n#include <stdlib.h>\nint main(void) { %s }\n' "$2" >"$folder/wrong.c"
  gcc -Iinclude -O2 -Wall -c "$folder/wrong.c" -o "$folder/wrong.o" 2>"$folder/output" &&
    grep -q "warning: .*\[$1=*\]" "$folder/output" &&
    gcc -Iinclude -O2 -Wall "-Wno-${1#-W}" -Werror -c "$folder/wrong.c" -o "$folder/wrong.o"
}

for compiler in gcc clang; do
  has "$compiler" "the header by $compiler" || continue
  for standard in c99 c11 c17 gnu99; do
    check "the header by $compiler, $standard" \
      is_clean "$compiler" "-std=$standard" -Wstrict-prototypes -Wshadow -x c
  done
  for standard in c++11 c++14 c++17 c++20; do
    check "the header by $compiler, $standard" \
      is_clean "$compiler" "-std=$standard" -Wold-style-cast -x c++
  done
  check "the macros by $compiler, C" leaves_constants "$compiler" -std=c99 -x c
  check "the macros by $compiler, C++" leaves_constants "$compiler" -std=c++11 -x c++
done
check 'the names of the header' names_are_ours

if has gcc 'what gcc says of wrong uses' && [ "$(gcc -dumpversion | cut -d . -f 1)" -ge 11 ]; then
  check 'bytes that are null' warns -Wnonnull 'return rtnlc_scan(NULL, 20, NULL).code;'
  check 'room that is null' warns -Wnonnull \
    'return rtnlc_request(16, 0, 1, false, NULL, 32).code;'
  check 'fewer bytes than len' warns -Wstringop-overread \
    'uint8_t bytes[16] = { 0 }; return rtnlc_scan(bytes, 20, NULL).code;'
  check 'a head of a builder that is null' warns -Wnonnull \
    'struct rtnlc_builder b = { 0 }; return rtnlc_builder_begin(&b, 16, 0, 1, 0, NULL, 16);'
  check 'fewer bytes of an attribute than len' warns -Wstringop-overread \
    'struct rtnlc_builder b = { 0 }; uint8_t a[4] = { 0 }; return rtnlc_builder_put(&b, 1, a, 6);'
  check 'less than the room' warns -Wstringop-overflow \
    'uint8_t out[16]; return rtnlc_request(16, 0, 1, false, out, 32).code;'
  check 'less than the room of a request' warns -Wstringop-overflow \
    'struct rtnlc_link_request link = { .index = 1 }; uint8_t out[16];
     return rtnlc_request_link(&link, RTNLC_SET, 1, false, out, 32).code;'
  check 'bytes for elements' warns -Wstringop-overflow \
    'struct rtnlc_event out[4]; return (int)rtnlc_tape(NULL, 0, NULL, out, sizeof out).count;'
  check 'bytes for changes' warns -Wstringop-overflow \
    'struct rtnlc_mirror m = { 0 }; struct rtnlc_change out[4];
     return (int)rtnlc_mirror_feed(&m, NULL, 0, out, sizeof out, NULL, 0).changes;'
  check 'bytes without a value' warns -Wuninitialized \
    'uint8_t bytes[16]; return rtnlc_scan(bytes, sizeof bytes, NULL).code;'
else
  echo 'skipped: what gcc says of wrong uses, since it is older than 11'
fi
