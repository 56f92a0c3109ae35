# What ./quic-run and ./quic-peer share, each of which sources this and calls run_program: a build of
# a program is used where there is one of the present sources, a proved one before a native one, or
# made where it is asked for; else the program is run as it stands, unproved.
#
# It needs `top`, the top of the repository; `command`, the name of the script; `program`, the crate
# of the program; and `input`, the name of the file that the program reads.

# say WHAT: says something of the script itself, on standard error.
say() {
  echo "$command: $1" >&2
}

# refuse WHY: says why there is nothing to run, or no proved build, and ends.
refuse() {
  say "$1"
  exit 1
}

# Prints how the script is used: the comment at its head.
help() {
  sed -n '2,/^[^#]/s/^# \{0,1\}//p' "$top/$command"
}

# Says what is missing on the PATH, if something is, and ends.
need_tools() {
  local tool
  for tool in rt python3; do
    if ! command -v "$tool" > /dev/null; then
      say "there is no $tool on the PATH: the toolchain is needed, and Python 3"
      exit 127
    fi
  done
}

# ---- builds

# Sets what a proved build of the present sources is known by, and what a native one is: nothing
# where these can't be digested.
digest() {
  local digests
  digests=$(python3 "$top/native/sources.py" "$top/crates/$program") || digests=''
  of_proved=${digests%%$'\n'*}
  of_native=${digests##*$'\n'}
}

# is_kept BUILD DIGEST: whether there is this build, with this digest. An empty one is none.
is_kept() {
  [ -n "$2" ] && [ -x "$1" ] && [ "$(head -n 1 "$1.digest" 2>/dev/null)" = "$2" ]
}

# Of how many crates of the repository the program is made, itself among them.
count_crates() {
  python3 "$top/native/sources.py" --crates "$top/crates/$program"
}

# Says to which crate the proof has come, of how many at most: crates that an earlier run kept are
# left out.
tell_crate() {
  told=$SECONDS
  say "crate $at of $all at most, after $((SECONDS - begun)) seconds: $crate"
}

# Passes the toolchain's progress on as it comes: which crate it has come to, once a minute that it
# is still there, and what it says of itself.
tell_progress() {
  local line crate='' name at=0 all told=$SECONDS
  all=$(count_crates)
  while read -t 10 -r line || [ $? -gt 128 ]; do
    name=$crate
    case $line in
      'rt: chose --jobs '*) name=${line##* } ;;
      'rt: running '*) ;;
      'rt: '*) say "${line#rt: }" ;;
      *::*': proved') name=${line#* } name=${name%%::*} ;;
    esac
    if [ "$name" != "$crate" ]; then
      crate=$name at=$((at + 1))
      tell_crate
    elif [ -n "$crate" ] && [ $((SECONDS - told)) -ge 60 ]; then
      tell_crate
    fi
    line=''
  done
}

# Proves and builds the program, and tells how far it is. Where that fails, all that the toolchain
# said is passed on, but for what was proved.
prove() {
  local status
  (cd "$top/crates/$program" && rt run < /dev/null) 2>&1 | tee "$work/proving" | tell_progress
  status=${PIPESTATUS[0]}
  if [ "$status" != 0 ]; then
    grep -v -E ': proved$|^rt: chose ' "$work/proving" >&2
    refuse "the program isn't proved (status $status)"
  fi
}

# Proves and builds the program, and keeps it if the sources are the same behind the proof.
build_proved() {
  local begun=$SECONDS before=$of_proved
  [ -n "$before" ] || refuse "the sources and the toolchain can't be digested"
  say "proving the program and the $(($(count_crates) - 1)) crates below it: up to an hour the first time"
  prove
  mkdir -p "$top/out" && cp "$top/crates/$program/out/$program" "$proved.new" || exit 1
  digest
  if [ "$of_proved" != "$before" ]; then
    rm -f "$proved.new"
    refuse 'a source or the toolchain changed during the proof, so the build is not kept'
  fi
  rm -f "$proved.digest" && mv "$proved.new" "$proved" && echo "$before" > "$proved.digest" || exit 1
  say "proved and built in $((SECONDS - begun)) seconds"
}

# Builds the program without proof, and keeps it.
build_native() {
  "$top/native/build" "$top/crates/$program" "$native" || refuse 'there is no native build'
}

# ---- runs

# Says why a line is a bad command, where the program said in $work/said that one is: on a line
# behind its own. The input has to be a file, $file, so that the line can be read again.
explain() {
  local number
  number=$(sed -n 's/^line \([0-9]*\): bad command$/\1/p' "$work/said" | tail -n 1)
  if [ -n "$number" ] && [ -n "$file" ]; then
    say "line $number: $(python3 "$top/why.py" "$command" "$number" < "$file")"
  fi
}

# run_kept BUILD: runs a build on standard input. Of one that isn't a file ./quic-run keeps a copy as
# it is read, to explain a bad command: what the program reads stands there before. ./quic-peer keeps
# none, as programs drive it.
run_kept() {
  local kept=$1 copying status
  if [ -n "$file" ]; then
    "$kept" 2> "$work/said"
    status=$?
  elif [ "$command" = quic-peer ]; then
    rm -rf "$work"
    exec "$kept"
  else
    file=$work/input
    : > "$file"
    exec 3<&0
    exec 4< <(exec tee /dev/fd/5 <&3 5>&1 > "$file")
    copying=$!
    "$kept" <&4 2> "$work/said"
    status=$?
    kill "$copying" 2>/dev/null
  fi
  cat "$work/said" >&2
  explain
  exit "$status"
}

# Says that an unproved run passed the limits of the toolchain, and what it answered last.
tell_limit() {
  local limit='takes more than ten minutes'
  if grep -q 'wrote more than' "$work/said"; then
    limit='prints more than 1 MiB'
  fi
  say "too long for an unproved run: it $limit. These are its last answers till then; with --native and --proved there is no limit"
  sed -n 's/^| //p' "$work/said" >&2
}

# Runs the program unproved on standard input, without what the runner itself says at the end.
try() {
  local status
  say 'running unproved, which takes about a minute of processor time; answers come at its end (--native builds it first, --proved proves it)'
  if [ -z "$file" ]; then
    file=$work/input
    cat > "$file"
    exec < "$file"
  fi
  cd "$top/crates/$program" || exit 1
  rt try --seconds 600 2> "$work/said"
  status=$?
  if grep -q '^run=ended ' "$work/said"; then
    grep -v -E '^(interpreter|checked|races): |^run=ended ' "$work/said" >&2
    explain
  elif grep -q '^run=no-answer ' "$work/said"; then
    tell_limit
  else
    cat "$work/said" >&2
  fi
  exit "$status"
}

# Takes the file of this name as standard input; without one, standard input is as it is. Where it
# is a file, $file is its name.
open_input() {
  if [ $# -eq 1 ]; then
    [ -r "$1" ] && [ ! -d "$1" ] || refuse "$1 isn't a file that can be read"
    exec < "$1" || exit 1
  fi
  if [ -f /dev/stdin ]; then
    file=$(readlink -f /dev/stdin)
    [ -r "$file" ] || file=''
  fi
}

# run_program [--native | --proved] [FILE], and with --is-proved, --is-built or --help alone: what the
# script does.
run_program() {
  local asked='' file='' proved=$top/out/$program native=$top/out/$program.native of_proved of_native
  case ${1-} in
    -h | --help)
      help
      exit
      ;;
    --is-proved | --is-built)
      need_tools
      digest
      is_kept "$proved" "$of_proved" || { [ "$1" = --is-built ] && is_kept "$native" "$of_native"; }
      exit
      ;;
    --native | --proved)
      asked=${1#--}
      shift
      ;;
  esac
  if [ $# -gt 1 ] || [[ ${1-} == -?* ]]; then
    echo "usage: $command [--native | --proved] [$input], or $command --help" >&2
    exit 1
  fi
  need_tools
  open_input "$@"
  digest
  work=$(mktemp -d) || exit 1
  trap 'rm -rf "$work"' EXIT
  if is_kept "$proved" "$of_proved"; then
    run_kept "$proved"
  elif [ "$asked" = proved ]; then
    build_proved
    run_kept "$proved"
  fi
  if [ "$asked" = native ] && ! is_kept "$native" "$of_native"; then
    build_native
  fi
  if is_kept "$native" "$of_native"; then
    say "$(sed -n 2p "$native.digest") (--proved proves it, in up to an hour)"
    run_kept "$native"
  fi
  try
}
