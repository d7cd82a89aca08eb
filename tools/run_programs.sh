#!/usr/bin/env bash
# Runs the built programs on further inputs: target/bin/PROGRAM on each tests/PROGRAM/NAME.in. Standard output must be
# NAME.out and standard error NAME.err, byte for byte; where there is no NAME.err, nothing may stand on standard error.
# Usage: run_programs.sh [PROGRAM..], tree, lister, archive_lister, show and template if none is named, once tools/build_programs.sh has built them.
# A program without inputs fails.
# Closes with one line 'N passed, M failed'. Exit status 0 only if something passed and nothing failed.
set -u
cd "$(dirname "$0")/.." || exit 2
shopt -s nullglob
wrote=$(mktemp -d) || exit 2
trap 'rm -rf "$wrote"' EXIT
passed=0
failed=0

# agrees PROGRAM INPUT
agrees() {
  local expected=${2%.in}
  timeout 60 "target/bin/$1" <"$2" >"$wrote/out" 2>"$wrote/err" || { echo "$2: ended with status $?"; return 1; }
  cmp "$wrote/out" "$expected.out" || return 1
  if [ -e "$expected.err" ]; then cmp "$wrote/err" "$expected.err"; else cmp "$wrote/err" /dev/null; fi
}

[ $# -gt 0 ] || set -- tree lister archive_lister show template
for program in "$@"; do
  inputs=("tests/$program"/*.in)
  if [ ${#inputs[@]} -eq 0 ]; then
    echo "$program: no inputs"
    failed=$((failed + 1))
  fi
  for input in "${inputs[@]}"; do
    if agrees "$program" "$input"; then
      passed=$((passed + 1))
    else
      echo "$input: not as expected"
      failed=$((failed + 1))
    fi
  done
done
echo "$passed passed, $failed failed"
[ "$failed" -eq 0 ] && [ "$passed" -gt 0 ]
