# The library for arm64, under qemu: calls on recorded and on mutated datagrams print what the
# program prints here, and the programs that need no other library run. It is made of what is not
# proved, so tests/run --quick alone has it.

arm64=(aarch64-linux-gnu-gcc -std=c99 -static)
tests/helpers/install_packages.sh "${arm64[0]}" gcc-aarch64-linux-gnu qemu-aarch64 qemu-user \
  /usr/aarch64-linux-gnu/include/stdio.h libc6-dev-arm64-cross

# built_arm64 NAME: a program of this folder, with a script that runs it.
built_arm64() {
  "${arm64[@]}" "${warnings[@]}" "tests/c_library/$1.c" "$folder/arm64/librtnlc.a" -o "$folder/arm64/$1" -pthread &&
    printf '#!/bin/sh\nexec qemu-aarch64 "%s" "$@"\n' "$folder/arm64/$1" >"$folder/arm64 $1" &&
    chmod +x "$folder/arm64 $1"
}

if [ -z "${RTNL_PROGRAM-}" ] || [ -e out/proved/librtnl_c.a ]; then
  echo 'skipped: the library for arm64, since it is compiled of what is not proved'
elif has "${arm64[0]}" 'the library for arm64' && has qemu-aarch64 'the library for arm64'; then
  check 'the library for arm64' env "CC=${arm64[0]}" c/build.sh "$folder/arm64"
  check 'the names that it defines' defines_the_calls "$folder/arm64/librtnlc.a" -g --defined-only
  for name in every find fixed misuse room builder mirror words wrong null; do
    check "arm64: $name.c" built_arm64 "$name"
  done
  for name in fixed misuse room builder mirror wrong null; do
    check "arm64: $name.c runs" quietly "$folder/arm64 $name"
  done
  check 'arm64: names of codes, and the version' says_version 'arm64 words'
  for order in little big; do
    check "arm64: calls on recorded datagrams, $order" compares 'arm64 every' recorded "$order"
    check "arm64: calls on mutated datagrams, $order" compares 'arm64 every' mutated "$order"
    check "arm64: what is found, $order" finds 'arm64 find' recorded "$order"
    for command in check show json; do
      check "arm64: $command, $order" prints_so 'arm64 every' "$command" recorded "$order"
    done
  done
fi
printf '#!/bin/sh\necho mips-linux-gnu\n' >"$folder/other_cc" && chmod +x "$folder/other_cc"
check 'a processor for which there is none' \
  ends 3 '' 'build.sh: the library is for x86-64 and for arm64, and not for mips-linux-gnu' \
  env "CC=$folder/other_cc" RTNL_BUILD=no c/build.sh "$folder/other"
