#!/usr/bin/env bash
# Builds heap.c, the tests of the heap of the page's module, plain and under the sanitizers, and
# runs it. The status is 1 where a case failed.
set -eu
cd "$(dirname "${BASH_SOURCE[0]}")"
folder=$(mktemp -d)
trap 'rm -rf "$folder"' EXIT

for how in '' '-fsanitize=address,undefined -fno-sanitize-recover=all'; do
  # shellcheck disable=SC2086
  ${CC:-cc} -std=c11 -O1 -g -Wall -Wextra -Werror -fno-builtin $how heap.c -o "$folder/heap"
  "$folder/heap"
done
