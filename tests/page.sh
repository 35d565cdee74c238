#!/usr/bin/env bash
# Opens the built page in Chromium: what it shows and copies of every recording, of broken and of
# mutated datagrams is held against the program, and what it takes of captures against rtnl-record.
# It is used by its keys and its links; its policy, roles, contrast and times are looked at; and
# changed pages are tried, each of which must be found wrong. With --pictures the pictures in docs/
# are made first. RTNL_PAGE names another page than out/rtnl.html. What is missing is installed
# where that can be. The last line is 'N passed, M failed'; the status is 1 where a case failed.
set -u
cd "$(dirname "${BASH_SOURCE[0]}")/.." || exit 1

RTNL_PROGRAM_NAMED=${RTNL_PROGRAM-}
RTNL_PROGRAM=$(tests/helpers/proved.py) && RTNL_PROGRAM=$(realpath "$RTNL_PROGRAM") || exit 1
export RTNL_PROGRAM
tests/helpers/install_packages.sh chromium chromium chromedriver chromium-driver \
  /usr/lib/python3/dist-packages/selenium python3-selenium \
  wasm-opt binaryen xxd xxd hexdump bsdextrautils node nodejs
. tests/helpers/cases.sh
for command in chromium chromedriver xxd hexdump node; do
  has "$command" 'the page' && continue
  finish
  exit
done

page=${RTNL_PAGE-out/rtnl.html}
if [ -z "${RTNL_PAGE+named}" ]; then
  # The page is of a proved library, as the same page that is built once more shows.
  [ -n "${RTNL_PROGRAM_NAMED-}" ] || export RTNL_PROVE=1
  packaging/page.py >/dev/null || web/build.py || exit 1
  whole 'the page, built twice' && check 'the page, built twice' tests/page/twice.py
  check 'the heap of its module' tests/page/heap.sh
fi
refused='its heap in the module, with each growth refused'
whole "$refused" && check "$refused" node tests/page/memory.js "$page"
check 'its readers take linear time' node tests/page/linear.js
# Debian's selenium is for Debian's Python.
/usr/bin/python3 tests/page/run.py "$page" "$@" | tee "$folder/said"
read -r found wrong < <(sed -nE '$s/^([0-9]+) passed, ([0-9]+) failed$/\1 \2/p' "$folder/said")
passed=$((passed + ${found:-0})) failed=$((failed + ${wrong:-1}))
finish
