#!/bin/sh
# Passes the tests: the whole gate, whose last line is 'N passed, M failed'.
cd "$(dirname "$0")/.." || exit 2
command -v rt > /dev/null || { echo "pass-tests.sh: rt is not on the path: it passes the tests" >&2; exit 2; }
exec rt ci
