# shellcheck shell=bash
# Runs programs whose devices fail, by the functions of refuse.c. To be sourced behind counts.sh.
"${CC:-cc}" -shared -fPIC -O1 -Wall -Wextra -Werror -o "$room/refuse.so" "$(dirname "${BASH_SOURCE[0]}")/refuse.c" -ldl
count $? 'tests/refuse.c is built'

# Runs a command whose Nth allocation is refused. False: it made fewer.
refuse() {
  local nth=$1
  shift
  rm -f "$room/refused"
  REFUSE=$nth REFUSED=$room/refused LD_PRELOAD=$room/refuse.so "$@" >"$room/out" 2>"$room/err" </dev/null
  came=$?
  [ -e "$room/refused" ]
}
