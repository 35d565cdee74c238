#!/usr/bin/env bash
# Builds the library for C and makes its calls: on every datagram of the recordings, as they are
# and mutated, in both byte orders, against the built program and against one another, with each
# allocation refused in turn, by four threads at once, and on a painted stack; in several
# versions of C and C++, and under the sanitizers. It reads the recordings as dumps by sessions
# and streams, and a hundred thousand mutated dumps against a second reading. It holds the header
# against the code, the names that the library defines and its manual page against the header,
# links it beside libmnl and libnl, and runs the examples, with the library installed. Packages
# that are missing are installed where that can be, and what can't run says so and isn't counted.
# The last line is 'N passed, M failed', and the status is 1 where a case failed.
set -u
cd "$(dirname "${BASH_SOURCE[0]}")/.." || exit 1
top=$PWD
program=$(tests/helpers/proved.py) || exit 1
. tests/helpers/cases.sh

tests/helpers/install_packages.sh cc gcc c++ g++ objcopy binutils pkg-config pkg-config \
  mandoc mandoc groff groff-base valgrind valgrind
CFLAGS="${CFLAGS-} -Werror" makes_library "$folder/library" || exit 1

. tests/c_library/names.sh
. tests/c_library/header.sh
. tests/c_library/programs.sh
. tests/c_library/dumps.sh
. tests/c_library/wrong.sh
. tests/c_library/beside.sh
. tests/c_library/installed.sh
. tests/c_library/manual.sh
. tests/c_library/examples.sh
. tests/c_library/arm64.sh

finish
