#!/bin/sh
# Runs the stored example before any proof: on a fresh machine it shows the replies within two minutes.
cd "$(dirname "$0")/../crates/postgate" || exit 2
command -v rt > /dev/null || { echo "try-example.sh: rt is not on the path: it compiles the program" >&2; exit 2; }
echo "compiling without a proof, about a minute; what follows is an UNPROVED run of the example" >&2
set --
while IFS= read -r word; do set -- "$@" "$word"; done < args
exec rt try --data main.cf=data/main.cf -- "$@" < stdin
