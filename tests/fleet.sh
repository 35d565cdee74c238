#!/usr/bin/env bash
# Runs each command that docs/FLEET.md shows over 2,000 recordings of 1,500 made-up hosts, and
# compares what it shows, and what it finds of all hosts, with what tests/fleet/hosts.py made them
# with. Then it runs the page over fewer hosts with one fault after another in its commands, and
# what is found must be wrong. sqlite3 is installed where that can be. The last line is 'N passed,
# M failed', and the status is 1 where a case failed.
set -u
cd "$(dirname "${BASH_SOURCE[0]}")/.." || exit 1
export LC_ALL=C.UTF-8

program=$(tests/helpers/proved.py) && program=$(realpath "$program") || exit 1
tests/helpers/install_packages.sh sqlite3 sqlite3
page=docs/FLEET.md
. tests/helpers/cases.sh
. tests/getting_started/blocks.sh

# make NAME COUNT: a folder of a user with so many hosts, where the commands are run from here on.
make() {
  user=$folder/$1
  tests/fleet/hosts.py "$user" "$2" && ln -s "$program" "$user/rtnl"
}

# find_lines: each host of the table, and how many lines it has there.
find_lines() { sqlite3 "$user/fleet.db" 'SELECT host, count(*) FROM lines GROUP BY host'; }

# is_right WHAT: what the page's commands found is what the hosts were made with.
is_right() { [ -s "$user/$1" ] && diff <(sort "$user/known/$1") <(sort "$user/$1"); }

# run_changed CHANGE: runs the page's commands with this change.
run_changed() {
  find "$user/hosts" -type f -name '*.json' -delete
  rm -f "$user"/{lines.sh,failed,fleet.db,answer,unfinished,lines}
  sed "$1" "$page" >"$folder/changed"
  (run_page 'a changed page' <"$folder/changed") >/dev/null
  find_lines >"$user/lines" 2>/dev/null
}

# is_unchanged_right: without a change all is right.
is_unchanged_right() {
  run_changed '' && for what in "${all[@]}"; do is_right "$what" || return; done
}

# is_wrong WHAT CHANGE: with this change something is found, and not what the hosts were made with.
is_wrong() {
  run_changed "$2"
  [ -s "$user/$1" ] && ! cmp -s "$page" "$folder/changed" && ! is_right "$1" >/dev/null
}

if ! has sqlite3 'the page'; then
  finish
  exit
fi
all=(failed lines answer unfinished)

make fleet 1500 || exit 1
SECONDS=0
run_page "$page" <"$page"
check 'commands of the page' runs_all "$page"
find_lines >"$user/lines"
for what in "${all[@]}"; do check "what is found: $what" is_right "$what"; done
recordings=$(find "$user/hosts" -name '*.hex' -printf x | wc -c)
echo "$recordings recordings: $SECONDS seconds"

make fewer 180 || exit 1
check 'fewer hosts' is_unchanged_right
check 'a metric of 100' is_wrong answer 's/ < 100$/ <= 100/'
check 'only a metric that is there' is_wrong answer 's/coalesce(metric, 0)/metric/'
check 'a name that begins so' is_wrong answer "s/name = 'eth1'/name LIKE 'eth1%'/"
check 'a name in capitals' is_wrong answer "s/name = 'eth1'/lower(name) = 'eth1'/"
check 'a link of another host' is_wrong answer 's/(host, link) IN (SELECT host, /link IN (SELECT /'
check 'no next hops' is_wrong answer "s/ IN ('OIF', 'MULTIPATH')/ = 'OIF'/"
check 'a host twice' is_wrong answer 's/SELECT DISTINCT /SELECT /'
check 'the first next hop' is_wrong answer 's/ AS hop$/ AS hop ON hop.key = 0/'
check 'IPv6 too' is_wrong answer "s/route ->> 'family' = 2 AND //"
check 'routes to a part' is_wrong answer "s/route ->> 'dst_len' = 0 AND //"
check 'local routes' is_wrong answer "s/ AND route ->> 'type' = 1//"
check 'a route that went away' is_wrong answer "s/kind = 'newroute' AND //"
check 'the main table alone' is_wrong answer "s/ = 1;/ = 1 AND route ->> 'table' = 254;/"
check 'three ends' is_wrong unfinished 's/ < 2;/ < 3;/'
check 'names without zero bytes' is_wrong failed "s/ -print0 / /; s/xargs -0 /xargs -d '\\\\n' /"
check 'a name in two words' is_wrong failed 's/json "$f" /json $f /'
check 'a name with a backslash' is_wrong failed "s/printf '%s.n' /echo /"
check 'an end at the first failure' is_wrong lines 's/{ status=/{ exit 1; status=/'

finish
