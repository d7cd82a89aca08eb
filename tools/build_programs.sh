#!/usr/bin/env bash
# Proves and builds the programs and the static library, and puts them at target/bin/PROGRAM and target/staticlib/libcse.a.
# Usage: build_programs.sh [NAME..]   (anywhere; NAME is a program, or cse for the library; all of them if none is named)
# What is proved is kept in crates/*/out, so that a second run takes seconds. `rt run` also runs a program that it has built: each is run
# once, on no input. Exit status 0 only if all were built; what was not built is not there.
set -u
cd "$(dirname "$0")/.." || exit 2
said=$(mktemp) || exit 2
trap 'rm -f "$said"' EXIT

# build CRATE MADE TO COMMAND..: runs a command in a crate's folder, and puts what it has made there in its place
build() {
  local folder=crates/$1 made=$2 to=$3
  shift 3
  rm -f "$to"
  if (cd "$folder" && "$@" </dev/null) >"$said" 2>&1 && mkdir -p "$(dirname "$to")" && cp "$folder/out/$made" "$to"; then
    echo "$to"
  else
    cat "$said"
    echo "$to: not built"
    return 1
  fi
}

[ $# -gt 0 ] || set -- cse tree lister archive_lister show template replay replay_check
status=0
for name in "$@"; do
  if [ "$name" = cse ]; then
    build exports libexports.a target/staticlib/libcse.a rt lib
  else
    build "$name" "$name" "target/bin/$name" rt run
  fi || status=1
done
exit $status
