# What a wrong use gets, as docs/C.md says, and what null pointers stand for.

for name in wrong null; do
  check "$name.c" built "$name" "$name" cc -std=c99
  check "$name.c runs" "$folder/$name"
  if whole "$name.c under valgrind" && has valgrind "$name.c under valgrind"; then
    check "$name.c under valgrind" \
      valgrind -q --leak-check=full --error-exitcode=9 "$folder/$name"
  fi
  check "$name.c with sanitizers" built "$name" "$name" cc -std=c99 -fsanitize=address,undefined \
    -fno-sanitize-recover=all
  check "$name.c with sanitizers runs" "$folder/$name"
  check "$name.c in C++" built "$name" "$name" c++ -std=c++11 -x c++
  check "$name.c in C++ runs" "$folder/$name"
done
