# The library's public names, what it takes of the C library, and the header against the code.

archive=$folder/library/librtnlc.a
shared=$folder/library/librtnlc.so.0

# declared: the functions of the header.
declared() { grep -oE '\brtnlc_[a-z0-9_]+\(' include/rtnlc.h | tr -d '(' | sort -u; }

# The version of the interface.
node=RTNLC_$(sed -n 's/^## \([0-9]*\.[0-9]*\)\..*/\1/p' CHANGELOG.md | head -n 1)

# names_in FILE [OPTION..]: the names that nm prints of it, but for that of the version itself.
names_in() {
  nm -j "${@:2}" "$1" | grep -v ':$' | sed "/^\$/d; s/@.*//; /^$node\$/d" | sort -u
}

# Each call of the header is one that the programs of this folder make.
calls_all() {
  diff <(declared) <(grep -ohE '\brtnlc_[a-z0-9_]+\(' tests/c_library/*.[ch] | tr -d '(' | sort -u)
}

# Each code of the header is one that words.c asks for the name of.
names_all_codes() {
  local codes='/^enum rtnlc_code/,/^};/s/^\t(RTNLC_[A-Z_]+) =.*/\1/p'
  diff <(sed -nE "$codes" include/rtnlc.h | sort) \
    <(sed -n '/codes\[\]/,/^};/p' tests/c_library/words.c | grep -oE 'RTNLC_[A-Z_]+' | sort)
}

defines_the_calls() { [ "$(declared | wc -l)" = 64 ] && diff <(declared) <(names_in "$@"); }

# Each call of the shared library carries the version of its interface.
carries_version() {
  diff <(declared | sed "s/\$/@@$node/") \
    <(nm -D --defined-only "$shared" | awk '$2 == "T" { print $3 }' | sort)
}

# Only functions on memory, what gives a seed, and what the linker itself names.
takes_memory_and_a_seed() {
  local memory='malloc|realloc|free|mem(cpy|move|set|cmp)' linker='_(ITM|_cxa|_gmon).*'
  local seed='syscall|__errno_location'
  names_in "$@" | grep -vxE "$memory|$seed|$linker|_GLOBAL_OFFSET_TABLE_" >"$folder/names"
  [ ! -s "$folder/names" ] || ! cat "$folder/names"
}

# The code lies where it is loaded, without a change.
is_position_independent() {
  readelf -dW "$shared" >"$folder/dynamic" &&
    grep -q 'SONAME.*\[librtnlc\.so\.0\]' "$folder/dynamic" && ! grep -q TEXTREL "$folder/dynamic"
}

# No code may stand on the stack of a program that loads it.
has_plain_stack() { readelf -lW "$shared" | grep -qE '^ *GNU_STACK .* RW +0x'; }

# keeps_nothing: no byte is kept from one call to the next, but for one whose place alone is
# used.
keeps_nothing() {
  objdump -tw "$archive" >"$folder/symbols"
  awk '$3 == "O" && $4 ~ /^\.(data|bss)/ && $4 !~ /rel\.ro/' "$folder/symbols" >"$folder/kept"
  [ "$(awk '{ print $NF }' "$folder/kept")" = nothing ] || ! cat "$folder/kept"
}

# takes_flags: those of the environment reach the compiler and the linker; LTO among them does no
# harm.
takes_flags() {
  CPPFLAGS=-DOF_A_PACKAGER CFLAGS='-g3 -flto' LDFLAGS='-flto -Wl,--build-id=0x0badcafe' \
    c/build.sh "$folder/flagged" && grep -q OF_A_PACKAGER "$folder/flagged/librtnlc.a" &&
    readelf -n "$folder/flagged/librtnlc.so.0" | grep -q 'Build ID: 0badcafe' &&
    defines_the_calls "$folder/flagged/librtnlc.a" -g --defined-only &&
    defines_the_calls "$folder/flagged/librtnlc.so.0" -D --defined-only
}

check 'the names that librtnlc.a defines' defines_the_calls "$archive" -g --defined-only
check 'the names that librtnlc.so.0 defines' defines_the_calls "$shared" -D --defined-only
check 'the version of each name' carries_version
check 'each call is made here' calls_all
check 'each code is asked for its name' names_all_codes
check 'what librtnlc.a takes' takes_memory_and_a_seed "$archive" --undefined-only
check 'what librtnlc.so.0 takes' takes_memory_and_a_seed "$shared" -D --undefined-only
check 'librtnlc.so.0 is position independent' is_position_independent
check 'the stack that librtnlc.so.0 asks for' has_plain_stack
check 'the library keeps nothing' keeps_nothing
check 'flags of the environment' takes_flags
check 'the header, the code and what lies between them' tests/c_library/structs.py
