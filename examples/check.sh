#!/bin/bash
# check.sh BINARY   runs every example by the mssp program BINARY
# check.sh --qemu   runs those that qemu-riscv32 agrees on by that
# check.sh --plain  runs them by the plain interpreter bench/interpreter.c, and compares the counts of steps
#
# It prints a line for each case, and at the end how many passed.
#
# A case is NAME of expected/NAME.status.  Its program is bin/P.elf, P being NAME up to
# the first '-'; its input is input/NAME.in, if there is one.  Output and status have to
# be those of expected/NAME.out and NAME.status, and what goes to standard error that of
# NAME.err (nothing, if there is no such file).
#
# expected/NAME.steps holds the number of instructions of the run.  With that number as
# its budget mssp has to end in the same way; with one less, with status 120.  This part is
# left out for a program that isn't the counted one, by expected/SHA256SUMS.
#
# Each case is also profiled, distilled with nothing rare cut, shown, checked, and run beside its
# image: with the same answer, and where the check says that the run meets what the image assumes,
# with no task squashed or dropped. The same again with the values of its loads, as constants.
#
# A profile is written where its name leads: over its program too, but neither onto a folder nor into
# one that isn't there.
#
# Cases with a line on standard error end by a trap, which is a signal under Linux, so
# --qemu leaves them out; --plain runs them too.
#
# Status: 0 all passed, 1 some failed, 2 wrong words, 77 nothing was run.

cd "$(dirname "$0")" || exit 2
usage() { sed -n 's/^# //p' check.sh | head -3 >&2; exit 2; }

[ $# -le 1 ] || usage
if [ $# = 0 ]; then
  echo "check.sh: skipped: no binary given (check.sh BINARY)"
  exit 77
fi
room=$(mktemp -d) || exit 2
trap 'rm -rf "$room"' EXIT
plain=
if [ "$1" = --plain ]; then
  if ! command -v gcc >/dev/null; then
    echo "check.sh: skipped: gcc isn't installed"
    exit 77
  fi
  gcc -O2 -Wall -Wextra -o "$room/interpreter" ../bench/interpreter.c || exit 1
  plain=$room/interpreter binary=
elif [ "$1" = --qemu ]; then
  if ! command -v qemu-riscv32 >/dev/null; then
    echo "check.sh: skipped: qemu-riscv32 isn't installed"
    exit 77
  fi
  binary=
else
  binary=$1
  case $binary in /*) ;; *) binary=$OLDPWD/$binary ;; esac
  if [ ! -f "$binary" ] || [ ! -x "$binary" ]; then
    echo "check.sh: $1 is no program" >&2
    exit 2
  fi
fi

# run_case NAME [BUDGET]: leaves what it wrote in $room/out and $room/err, its status in $status
run_case() {
  local program=bin/${1%%-*}.elf input=input/$1.in words=()
  if [ -n "$binary" ]; then
    [ -f "$input" ] && words+=(--input "$input")
    [ $# = 2 ] && words+=(--budget "$2")
    "$binary" run "$program" "${words[@]}" >"$room/out" 2>"$room/err" </dev/null
  elif [ -n "$plain" ]; then
    [ -f "$input" ] && words+=(--input "$input")
    "$plain" run "$program" "${words[@]}" --steps "$room/steps" >"$room/out" 2>"$room/answer" </dev/null
    status=$?
    sed 's/^interpreter: /mssp: /' "$room/answer" >"$room/err"
    return
  else
    [ -f "$input" ] || input=/dev/null
    qemu-riscv32 "$program" >"$room/out" 2>"$room/err" <"$input"
  fi
  status=$?
}

# the case NAME has the expected answer; otherwise says how it differs
as_expected() {
  local wanted err=/dev/null
  wanted=$(<"expected/$1.status")
  [ -f "expected/$1.err" ] && err=expected/$1.err
  if [ "$status" != "$wanted" ]; then
    echo "FAILED $1$2: status $status for $wanted: $(head -c 200 "$room/err")"
    return 1
  fi
  if ! cmp "$room/out" "expected/$1.out" >"$room/differ" 2>&1; then
    echo "FAILED $1$2: output: $(<"$room/differ")"
    return 1
  fi
  if ! cmp "$room/err" "$err" >"$room/differ" 2>&1; then
    echo "FAILED $1$2: standard error: $(head -c 200 "$room/err")"
    return 1
  fi
}

# with one step less the run is cut off
cut_off() {
  if [ "$status" != 120 ] || [ "$(<"$room/err")" != 'mssp: budget' ]; then
    echo "FAILED $1 with a budget of one step less: status $status for 120: $(head -c 200 "$room/err")"
    return 1
  fi
}

is_counted() { (cd bin && grep " $1.elf\$" ../expected/SHA256SUMS | sha256sum --check --status 2>/dev/null); }

# the plain interpreter took as many steps
counts_alike() {
  if [ "$(<"$room/steps")" != "$(<"expected/$1.steps")" ]; then
    echo "FAILED $1: $(<"$room/steps") steps for $(<"expected/$1.steps")"
    return 1
  fi
}

passed=0 failed=0 uncounted=
pass() { passed=$((passed + 1)); echo "passed $1"; }
for file in expected/*.status; do
  name=$(basename "$file" .status)
  if [ -z "$binary$plain" ] && [ -f "expected/$name.err" ]; then
    echo "left out: $name"
    continue
  fi
  run_case "$name"
  if ! as_expected "$name" ''; then
    failed=$((failed + 1))
    continue
  fi
  if [ -n "$binary" ] && is_counted "${name%%-*}"; then
    steps=$(<"expected/$name.steps")
    run_case "$name" "$steps"
    as_expected "$name" " with a budget of $steps" || { failed=$((failed + 1)); continue; }
    run_case "$name" $((steps - 1))
    cut_off "$name" || { failed=$((failed + 1)); continue; }
  elif [ -n "$plain" ] && is_counted "${name%%-*}"; then
    counts_alike "$name" || { failed=$((failed + 1)); continue; }
  elif [ -n "$binary$plain" ]; then
    uncounted="$uncounted $name"
  fi
  pass "$name"
done

# speculation/NAME.img with speculation/NAME.events: the replay is speculation/NAME.out; the run beside the image has the
# status of the program alone, and its report is speculation/NAME.report
speculates() {
  local folder=speculation
  if ! "$binary" replay $folder/count.elf "$folder/$1.img" "$folder/$1.events" </dev/null 2>&1 | cmp - "$folder/$1.out"; then
    echo "FAILED replay with $1.img"
    return 1
  fi
  "$binary" run $folder/count.elf --image "$folder/$1.img" --report "$room/report" </dev/null >"$room/out" 2>&1
  status=$?
  if [ "$status" != 10 ] || [ -s "$room/out" ] || ! cmp "$room/report" "$folder/$1.report"; then
    echo "FAILED run with $1.img: status $status for 10"
    return 1
  fi
}

# the case NAME is profiled, distilled, shown and checked, and answers the same beside its image; with `values` loads of
# one value are constants in it
distils() {
  local program=bin/${1%%-*}.elf input=input/$1.in words=() with=() verdict
  [ -f "$input" ] && words+=(--input "$input")
  if [ "$2" = values ]; then
    "$binary" values "$program" "$room/values" "${words[@]}" </dev/null || { echo "FAILED $1: no values of it"; return 1; }
    with=(--values "$room/values")
  fi
  if ! "$binary" profile "$program" "$room/profile" "${words[@]}" </dev/null ||
    ! "$binary" distill "$program" "$room/profile" "$room/image" --rare 0 "${with[@]}" </dev/null ||
    ! "$binary" show "$room/image" </dev/null >"$room/shown"; then
    echo "FAILED $1: no image of it"
    return 1
  fi
  "$binary" check "$program" "$room/image" "${words[@]}" </dev/null >"$room/verdict"
  verdict=$?
  "$binary" run "$program" --image "$room/image" --report "$room/report" "${words[@]}" >"$room/out" 2>"$room/err" </dev/null
  status=$?
  as_expected "$1" ' beside its image' || return 1
  if [ $verdict -gt 1 ] || { [ $verdict = 0 ] && ! grep -q '^squashed 0$' "$room/report"; } ||
    { [ $verdict = 0 ] && ! grep -q '^dropped 0$' "$room/report"; }; then
    echo "FAILED $1: $(<"$room/verdict"), and the report: $(tr '\n' ' ' <"$room/report")"
    return 1
  fi
}

# what `profile` answers where the name of its output is that of its program, of a folder, or lies in none
writes_where_named() {
  local name
  cp bin/hello.elf "$room/own"
  if ! "$binary" profile bin/hello.elf "$room/profile" </dev/null ||
    ! "$binary" profile "$room/own" "$room/own" </dev/null || ! cmp "$room/profile" "$room/own"; then
    echo "FAILED profile over its program"
    return 1
  fi
  for name in "$room" "$room/absent/profile"; do
    "$binary" profile bin/hello.elf "$name" </dev/null >"$room/out" 2>"$room/err"
    status=$?
    if [ "$status" != 112 ] || [ -s "$room/out" ] || [ "$(<"$room/err")" != "mssp: store fault $name" ]; then
      echo "FAILED profile to $name: status $status for 112"
      return 1
    fi
  done
}

if [ -n "$binary" ]; then
  if writes_where_named; then pass 'profiles where their names lead'; else failed=$((failed + 1)); fi
  for file in expected/*.status; do
    name=$(basename "$file" .status)
    if distils "$name"; then pass "$name beside its image"; else failed=$((failed + 1)); fi
    if distils "$name" values; then pass "$name beside its image with values"; else failed=$((failed + 1)); fi
  done
  for name in lazy kept; do
    if speculates "$name"; then pass "replay and run with $name.img"; else failed=$((failed + 1)); fi
  done
  if command -v python3 >/dev/null; then
    if python3 speculation/rules.py "$binary" >"$room/out"; then
      pass 'images that break a rule of fitting each'
    else
      cat "$room/out"
      failed=$((failed + 1))
    fi
  fi
fi

[ -z "$uncounted" ] || echo "not the counted programs, so without the budgets:$uncounted"
echo "$passed passed, $failed failed"
[ "$failed" = 0 ]
