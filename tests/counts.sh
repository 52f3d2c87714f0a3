# shellcheck shell=bash
# What each script of checks begins with: it counts checks, and ends with `N passed, M failed`, or with `N passed, M failed, K busy` where
# the machine was too busy for K checks to tell anything. To be sourced.
passed=0
failed=0
busy=0
room=$(mktemp -d) || exit 1
trap 'rm -rf "$room"' EXIT

# Counts a check by the status of the command before, and names it.
count() {
  if [ "$1" = 0 ]; then
    passed=$((passed + 1))
  else
    failed=$((failed + 1))
    echo "FAILED: $2"
  fi
}

# Runs the program and compares its status, output and error output, each with a file or with a text.
tells() {
  local name=$1 status=$2 out=$3 err=$4 came
  shift 4
  "$@" >"$room/out" 2>"$room/err" </dev/null
  came=$?
  [ "$came" = "$status" ] && printf %b "$out" | cmp -s - "$room/out" && printf %b "$err" | cmp -s - "$room/err"
  count $? "$name: status $came, error output: $(head -c 200 "$room/err")"
}

# Runs a script of checks, shows what it says and adds the counts of its last line. One that tells none has failed.
add() {
  local name=$1 began=$SECONDS status told
  shift
  "$@" | tee "$room/said"
  status=${PIPESTATUS[0]}
  told=$(tail -n 1 "$room/said")
  if [[ $told =~ ^([0-9]+)\ passed,\ ([0-9]+)\ failed(,\ ([0-9]+)\ busy)?$ ]]; then
    passed=$((passed + BASH_REMATCH[1]))
    failed=$((failed + BASH_REMATCH[2]))
    busy=$((busy + ${BASH_REMATCH[4]:-0}))
    [ "$status" = 0 ] || [ "${BASH_REMATCH[2]}" != 0 ]
    count $? "$name ended with status $status"
  else
    count 1 "$name told no counts"
  fi
  echo "== $name: $told, $((SECONDS - began)) seconds"
}

# The counts so far, as the last line of a script of checks has them.
counts() {
  if [ "$busy" = 0 ]; then
    echo "$passed passed, $failed failed"
  else
    echo "$passed passed, $failed failed, $busy busy"
  fi
}

# The last line of a script of checks, and its status. What was busy neither passed nor failed.
tell_counts() {
  counts
  [ "$failed" = 0 ]
}
