#!/usr/bin/env bash
# Runs each script of examples/ and tests/scripts/ through the program that `rt ci` leaves, and compares what it writes, and
# the status where one is stored, with what is stored. A script NAME.py prints the statements.
set -u
cd "$(dirname "$0")/.." || exit 1
program=crates/vec_server/out/vec_server
if [ ! -x "$program" ]; then
  echo "scripts: skipped, $program is missing"
  exit 0
fi
failed=0
count=0
written=$(mktemp)
trap 'rm -f "$written"' EXIT
for script in examples/*.sql tests/scripts/*.sql tests/scripts/*.py; do
  name="${script%.*}"
  if [ "$script" = "$name.py" ]; then
    if ! command -v python3 > /dev/null; then
      echo "scripts: $script skipped, python3 is missing"
      continue
    fi
    python3 "$script" | "$program" shell > "$written"
  else
    "$program" shell < "$script" > "$written"
  fi
  status=$?
  count=$((count + 1))
  if ! cmp -s "$written" "$name.out"; then
    echo "scripts: $script does not write $name.out"
    failed=1
  fi
  if [ -f "$name.status" ] && [ "$status" != "$(cat "$name.status")" ]; then
    echo "scripts: $script ends with $status, and not with $(cat "$name.status")"
    failed=1
  fi
done
echo "scripts: $count, failed: $failed"
exit "$failed"
