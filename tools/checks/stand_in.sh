# Sourced by the scripts that check ./vepkhundi, behind counted.sh: a clone whose toolchain is a stand-in, which proves
# nothing. Its program writes its folder and its words, copies the first FILE line by line to out0.resp for `serve FILE..`,
# `frames M FILE..` and `drive SCHEDULE FILE..`, the second to out1.resp and so on, and ends with status ENDS, which is 7 if
# it isn't set. WIRE is what it writes to out0.resp in the place of the first.
# OPENED names a file that gets the program's open files, and IGNORED one that gets the signals that it ignores. SAYS is
# what it says in the place of its folder and words. DUMPS is written behind these, to the file of the next number. WAITS
# names a file that it writes before it waits for a minute.

home="$room/a folder 'of' \$its own"
crate=$home/crates/flake_program
chmod 711 "$room"
mkdir -p "$crate/src" "$home/crates/low/proofs" "$home/.git" "$home/tools" "$room/bin" "$room/calls"
cp "$top/vepkhundi" "$home"
cp -r "$top"/tools/{launcher,plain} "$home/tools"
printf 'one\n' | tee "$crate/src/main.rt" "$home/crates/low/proofs/Lib.antt" >"$home/HANDLES"
printf '# From the bottom.\nlow:\nflake_program: low std\n' >"$home/crates.txt"

cat >"$room/program" <<'END'
#!/bin/sh
[ -n "${SAYS-}" ] || pwd -P
[ -n "${SAYS-}" ] || for word; do printf '<%s>' "$word"; done
printf "${SAYS-}"
[ -z "${WAITS-}" ] || { echo waits >"$WAITS"; exec sleep 60; }
[ -z "${IGNORED-}" ] || grep SigIgn /proc/$$/status >"$IGNORED"
[ -z "${OPENED-}" ] || (ls -l "/proc/$$/fd" >"$OPENED")
if [ "$1" = serve ] || [ "$1" = drive ] || [ "$1" = frames ]; then
  case $1 in
    drive) shift; [ -f "${1-}" ] || set -- missing ;;
    frames) shift ;;
  esac
  shift
  [ "$1" != -- ] || shift
  session=0
  for file; do
    [ -r "$file" ] || break
    left=100
    while [ $left -gt 0 ] && read -r line; do printf '%s\n' "$line" >>out$session.resp; sleep 0.01; left=$((left - 1)); done <"$file"
    session=$((session + 1))
  done
  [ -z "${DUMPS-}" ] || printf -- "$DUMPS" >>out$session.resp
  [ -z "${WIRE-}" ] || printf -- "$WIRE" >out0.resp
fi
exit "${ENDS-7}"
END

# RT_FAILS has it fail, RT_EDITS change a source, RT_WAITS write its number there and wait for a minute, RT_HELD wait until
# there is such a file. RT_SHOWS has it say how far it is: further where the file RT_SHOWN has the text RT_SHOWS, and where no
# such file is named after a while.
cat >"$room/bin/rt" <<'END'
#!/bin/sh
echo "$*" >>"$RT_CALLS"
[ "$(pwd -P | sed 's|.*/||')" = flake_program ] || exit 9
# waits_for COMMAND..: until it ends well, a minute at most
waits_for() {
  for _ in $(seq 600); do ! "$@" || return 0; sleep 0.1; done
}
until_shown() {
  if [ -n "${RT_SHOWN-}" ]; then waits_for grep -q "$1" "$RT_SHOWN"; else sleep 1.5; fi
}
if [ "$1" = try ]; then
  echo 'words of rt try' >&2
  [ -z "${RT_FAILS-}" ] || exit 1
  while [ "$1" != -- ]; do shift; done
  shift
  [ -z "${RT_WAITS-}" ] || { echo $$ >"$RT_WAITS"; exec sleep 60; }
  [ -z "${RT_SLOW-}" ] || sleep "$RT_SLOW"
  own=$(mktemp -d) && cd "$own" && cp "$RT_PROGRAM" program && chmod +x program && ./program "$@"
  echo "run=ended status=$? runners=1 proved=no" >&2
  rm -r "$own"
  exit 0
fi
echo 'words of rt'
[ -z "${RT_WAITS-}" ] || { echo $$ >"$RT_WAITS"; exec sleep 60; }
[ -z "${RT_HELD-}" ] || waits_for test -e "$RT_HELD"
[ -z "${RT_SHOWS-}" ] || {
  echo 'rt: chose --jobs 4 for low'; echo 'so far: 3 of 9 functions checked'; until_shown "$RT_SHOWS"
  echo 'crate low: modules loaded=1 checked=2'; until_shown '1 of [23] crates'
}
[ -z "${RT_FAILS-}" ] || exit 1
[ -z "${RT_EDITS-}" ] || echo edited >>src/main.rt
cp "$RT_PROGRAM" out/flake_program && chmod +x out/flake_program
END
chmod +x "$room/bin/rt"
export PATH="$room/bin:$PATH" RT_CALLS="$room/rt_calls" RT_PROGRAM="$room/program"
: >"$RT_CALLS"

# call FOLDER WORD..: calls the command in the folder, and keeps what it said, its notes and its status
call() {
  (cd -- "$1" && exec "$home/vepkhundi" "${@:2}") </dev/null >"$room/said" 2>"$room/notes"
  status=$?
}

calls_of_rt() { wc -l <"$RT_CALLS"; }

# runs STATUS CALLS WORD..: the command ends with the status, after so many calls of rt in all
runs() {
  local calls
  call "$room/calls" "${@:3}"
  calls=$(calls_of_rt)
  [[ $status == "$1" && $calls == "$2" ]] && return
  printf 'status %s, and %s is wanted; calls of rt: %s, and %s are wanted; on standard error:\n' "$status" "$1" "$calls" "$2"
  cat "$room/notes"
  return 1
}

# ends STATUS FOLDER WORD..: called in the folder, the command ends with the status
ends() {
  call "${@:2}"
  [[ $status == "$1" ]] && return
  printf 'status %s, and %s is wanted; on standard error:\n' "$status" "$1"
  cat "$room/notes"
  return 1
}

notes() { grep -q -- "$1" "$room/notes" || { printf 'nothing notes: %s\n' "$1"; cat "$room/notes"; return 1; }; }
notes_lines() { [[ $(wc -l <"$room/notes") == "$1" ]] || { cat "$room/notes"; return 1; }; }
proved() { notes 'was proved from the sources as they stand'; }
said_nothing() { [[ ! -s $room/said ]] && ! proved >/dev/null; }
