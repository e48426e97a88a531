# Sourced by the scripts that check: counts checks, and says how each ends. It makes a folder, $room, that goes at the end.

passed=0
failed=0
room=$(mktemp -d) || exit 1
trap 'rm -rf -- "$room"' EXIT

# check WHAT COMMAND..: one check, which passes where the command ends well; else what the command said is shown. Where
# CHECK_ONLY is set, those alone are run whose WHAT matches it.
check() {
  what=$1
  shift
  printf '%s\n' "$what" | grep -qE -- "${CHECK_ONLY-}" || return 0
  if "$@" >"$room/said_by_check" 2>&1; then
    passed=$((passed + 1))
    printf 'passed  %s\n' "$what"
  else
    failed=$((failed + 1))
    printf 'FAILED  %s\n' "$what"
    head -c 2000 "$room/said_by_check" | sed 's/^/        /'
  fi
}

# awaits COMMAND..: waits until it ends well, for two minutes at most, so that a check fails and doesn't hang. No check relies
# on how long anything takes.
awaits() {
  for _ in $(seq 1200); do
    ! "$@" >/dev/null 2>&1 || return 0
    sleep 0.1
  done
  printf 'two minutes went by without: %s\n' "$*"
  return 1
}

# leaves_out WHAT WHY: said in place of checks whose means aren't here; they are not counted.
leaves_out() { printf 'not run %s: %s\n' "$1" "$2"; }

# Says the sums and ends, well only where something passed and nothing failed.
end_of_checks() {
  printf '%s passed, %s failed\n' "$passed" "$failed"
  [ "$passed" -gt 0 ] && [ "$failed" -eq 0 ]
  exit
}
