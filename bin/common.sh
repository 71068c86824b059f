# What bin/yardcheck and bin/yardlist share; each sources it, after it has set `me`, its name, `help`, what --help says, and `here`, the
# folder above its own. The folder that a command works on may be anybody's: nothing is looked up in it but what the program opens.
# shellcheck shell=sh disable=SC2034,SC2154

work='' spare='' ended='' answer=3 mode=all

# echo may take a backslash in a name for more than it is
say() { printf '%s: %s\n' "$me" "$1" >&2; }

fail() {
  say "$1"
  exit 3
}

# write_line LINE: to standard output
write_line() { printf '%s\n' "$1" || fail 'the lines could not be written'; }

# stop: ends the command that `begin` started last, with all that it started, unless it has been waited for. It is killed first by its
# number and then by that of its session, which it may not have yet.
stop() {
  [ "${!-}" != "$ended" ] || return 0
  kill -s KILL "$!" 2> /dev/null
  kill -s KILL -- "-$!" 2> /dev/null
  wait "$!" 2> /dev/null
  ended=$!
}

# leave: the end of the script, whatever leads there. A shell that cannot go on ends with a number of its own, 2 in some, which would look
# like an answer. That may be because no process is to be had, and exec needs none. What is left is the folder of temporary files, and a
# file that the program may have made and that was not to stay, `spare`.
leave() {
  trap - EXIT
  stop
  [ -z "$work$spare" ] || exec /bin/sh -c 'trap "exit $3" EXIT; rm -rf "$1"; rm -f "$2"; exit' sh "$work" "$spare" "$answer"
  exit "$answer"
}

# die SIGNAL: dies of it as if it had not been caught, so that a shell that waits for the script knows
die() {
  trap '' HUP INT QUIT TERM
  trap - EXIT
  stop
  [ -z "$work" ] || rm -rf "$work"
  [ -z "$spare" ] || rm -f "$spare"
  trap - "$1"
  kill -s "$1" "$$"
  # there are shells that ignore QUIT themselves
  exec kill -s "$1" "$$"
}

trap leave EXIT
# nothing here reads standard input, and no file of the yard may; what the command reads comes on descriptor 3
exec < /dev/null 3< /dev/null

# ---- nothing is looked up from a folder that a relative path leads to: it may be the yard

# whole SEPARATORS LIST [names]: sets `kept` to the parts of a list of paths that are whole, or also to names without a slash
whole() {
  kept='' IFS=$1
  set -f
  for part in $2; do
    case $part,${3-} in
      /*) ;;
      */* | ,*) continue ;;
      *,names) ;;
      *) continue ;;
    esac
    kept=$kept${kept:+:}$part
  done
  set +f
  unset IFS
}

unset CDPATH GCONV_PATH
whole : "${PATH-}"
# an empty PATH is the current folder
PATH=${kept:-/usr/bin:/bin}
export PATH
for name in LD_LIBRARY_PATH LD_PRELOAD LD_AUDIT; do
  eval "list=\${$name-}"
  case $name in
    LD_LIBRARY_PATH) whole ':;' "$list" ;;
    # a name is looked up in those folders and the system's
    *) whole ': ' "$list" names ;;
  esac
  if [ -n "$kept" ]; then eval "$name=\$kept"; else unset "$name"; fi
done

# ---- signals; there is nothing to end before

for signal in HUP INT QUIT ALRM TERM USR1 USR2; do
  # shellcheck disable=SC2064
  trap "die $signal" "$signal"
done
# a line that nobody reads is one that could not be written
trap : PIPE

# ---- what is asked for

give_help() {
  write_line "$help"
  answer=0
  exit
}

give_version() {
  file=$here/VERSION
  [ ! -e "$here/share/dwombarine/VERSION" ] || file=$here/share/dwombarine/VERSION
  IFS= read -r version < "$file" || fail "the version is not to be had: $file"
  write_line "$me (Dwombarine) $version"
  answer=0
  exit
}

# enter FOLDER: sets `place` to a path that leads to the folder
enter() {
  [ -n "$1" ] || fail "the folder's name is empty"
  case ${RATTLE_HOME:-/} in /*) ;; *) fail "RATTLE_HOME is not a whole path: $RATTLE_HOME" ;; esac
  [ "$mode" = status ] || (: 4>&1) 2> /dev/null || fail 'standard output is closed'
  # `cd -` goes elsewhere
  case $1 in /*) place=$1 ;; *) place=./$1 ;; esac
  if ! (cd -P "$place") 2> /dev/null; then
    [ ! -d "$place" ] || fail "the folder cannot be entered: $1"
    [ ! -e "$place" ] || fail "not a folder: $1"
    fail "no such folder: $1"
  fi
}

# ---- how a command is run

# find_tools: what `begin` needs
find_tools() {
  setsid=$(command -v setsid) || fail 'setsid is not on the path'
  env=$(command -v env) || fail 'env is not on the path'
  # where the system can do that, the command also dies with a script that is killed and cannot end it
  setpriv=$(command -v setpriv) && "$setpriv" --pdeathsig KILL true 2> /dev/null || setpriv=''
}

no_room() { fail "no room for temporary files in ${TMPDIR:-/tmp}"; }

# make_work: a folder for temporary files
make_work() {
  work=$(mktemp -d) || {
    work=''
    no_room
  }
  # TMPDIR may be relative, and look like an option
  case $work in /*) ;; *) work=$(pwd)/$work ;; esac
}

# drop_work: removes it
drop_work() {
  rm -rf "$work"
  work=''
}

# make_pipe: descriptors 5 to read and 6 to write. A shell names no pipe, so it is made as a file, opened for both first since the one waits
# for the other.
make_pipe() {
  mkfifo -m 600 "$work/lines" || no_room
  exec 4<> "$work/lines"
  exec 5< "$work/lines" 6> "$work/lines" 4>&-
}

# begin FOLDER COMMAND..: starts a command, with its whole path, in a folder. It reads what comes on descriptor 3, and all that it writes, on
# standard error too, comes line by line on descriptor 5. It has no other file of the caller's: a list may name /dev/stdin, /dev/fd/3 or
# /dev/tty. In a session of its own it has no terminal either, and it can be ended with all that it starts.
begin() {
  folder=$1
  shift
  (cd -P "$folder" && exec "$setsid" ${setpriv:+"$setpriv" --pdeathsig KILL} "$@") \
    <&3 >&6 2>&6 3<&- 4<&- 5<&- 6<&- 7<&- 8<&- 9<&- &
  exec 6>&-
}

# ended_with: the status of the command, of which nothing more is to be read
ended_with() {
  exec 5<&-
  wait "$!" 2> /dev/null
  status=$?
  ended=$!
}

# ---- the program

# is_current: the program is there, and no source is newer. What rt makes is no source.
is_current() {
  [ -x "$program" ] || return
  newer=$(find "$here/crates.txt" "$here/crates" -path "$here/crates/*/out" -prune -o \
    \( -name '*.rt' -o -name '*.antt' -o -name crates.txt \) -newer "$program" -print) || return
  [ -z "$newer" ]
}

# build: proves and compiles it, by `rt run`, which then runs it in its crate's folder: for a 0, which names no edition, yardlist makes no
# list, and yardcheck finds none there. A stamp beside the program tells that it is built of what is there. What rt says of a crate is passed
# on as it comes.
build() {
  rt=$(command -v rt) || fail "rt, Rattle's command, is not on the path"
  mkdir -p "${program%/*}" && probe=$(mktemp "${program%/*}/$me.XXXXXX") && rm -f "$probe" ||
    fail "the program is to be built, and the checkout cannot be written: ${program%/*}"
  [ "$mode" = status ] || say 'building: the program and all it stands on are proved first, which takes minutes'
  make_work
  touch "$work/stamp" || no_room
  rm -f "$program.stamp"
  make_pipe
  begin "$here/crates/$me" "$env" "TMPDIR=$work" "$rt" run -- 0
  log=''
  while IFS= read -r line <&5; do
    log="$log$line
"
    case $mode,$line in
      status,*) ;;
      *,'crate '*': modules '*) printf '%s\n' "$line" >&2 ;;
    esac
  done
  ended_with
  # the status is the program's own where it was run
  [ -e "$program.stamp" ] && [ -x "$program" ] || {
    printf '%s' "$log" >&2
    fail 'not proved and built'
  }
  # what is already built is not written again; as old as the stamp, it is older than a source that was edited meanwhile
  touch -r "$work/stamp" "$program" || fail "the checkout cannot be written: $program"
  drop_work
}

# find_program: sets `installed` to the program where the script is installed, below the same prefix, where it needs no kit; and else
# `program`, `loader` and `library` to what the kit runs it with, and `emulator` where one stands among the kit's tools: it is an x86-64
# program.
find_program() {
  installed=$here/libexec/dwombarine/$me
  [ ! -x "$installed" ] || return 0
  installed='' program=$here/crates/$me/out/$me
  is_current || build
  kit=$("$here/tests/kit/tools") || fail "Rattle's kit, under which the program runs, is not to be had"
  emulator=$kit/bin/qemu-x86_64
  [ -x "$emulator" ] || emulator=''
  loader=$kit/lib/ld-linux-x86-64.so.2 library=$kit/lib
}

# begin_program WORDS..: starts it in the folder, with these words and no variable
begin_program() {
  if [ -n "$installed" ]; then
    begin "$place" "$env" -i "$installed" "$@"
  else
    begin "$place" "$env" -i ${emulator:+"$emulator"} "$loader" --library-path "$library" "$program" "$@"
  fi
}
