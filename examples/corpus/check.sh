#!/bin/bash
# check.sh BINARY [--beside|--calls|--values]   runs the cases of cases.txt by the mssp program BINARY
# check.sh --qemu              runs them by qemu-riscv32
# check.sh --plain             runs them by the plain interpreter bench/interpreter.c, and compares the counts of steps
#
# A case is a line of cases.txt: its name, its program elf/PROGRAM.elf, its input in/INPUT or none, its
# status, and how many steps its run has. The output has to be that of expect/CASE.out, and nothing may go
# to standard error. Outputs and statuses are those that qemu-riscv32 gave.
#
# The run has to end within its steps as the budget, and not within one less.
#
# --beside goes the whole way for each case of fewer than 3,000,000 steps: profile, distill with nothing rare
# cut, certify, check, and run beside the image; --calls the same by profiles with calls counted, so that tasks print;
# --values the same where loads of one value are constants. Output and status have to be the same; where the check says that
# the run meets what the image assumes, no task may be squashed or dropped. A case whose check says otherwise is marked.
# Each case tells how many of its steps tasks did, and with --values how many loads of its program's executed ones became constants.
#
# It prints a line for each case. Status: 0 all passed, 1 some failed, 2 wrong words, 77 nothing was run.

usage() { echo "check.sh BINARY [--beside|--calls|--values]"; echo "check.sh --qemu"; echo "check.sh --plain"; } >&2
case "$#:$1:$2" in
  1:--qemu:)
    command -v qemu-riscv32 >/dev/null || { echo "check.sh: skipped: qemu-riscv32 isn't installed"; exit 77; }
    binary= way=qemu ;;
  1:--plain:)
    command -v gcc >/dev/null || { echo "check.sh: skipped: gcc isn't installed"; exit 77; }
    binary= way=plain ;;
  1:?*: | 2:?*:--beside | 2:?*:--calls | 2:?*:--values)
    binary=$(realpath -- "$1") way=${2:-alone} calls=0
    [ "$way" != --calls ] || calls=1
    [ -f "$binary" ] && [ -x "$binary" ] || { echo "check.sh: $1 is no program" >&2; exit 2; } ;;
  0::) echo "check.sh: skipped: no binary given (check.sh BINARY)"; exit 77 ;;
  *) usage; exit 2 ;;
esac
cd "$(dirname "$0")" || exit 2
room=$(mktemp -d) || exit 2
trap 'rm -rf "$room"' EXIT
most=3000000
if [ $way = plain ]; then
  gcc -O2 -Wall -Wextra -o "$room/interpreter" ../../bench/interpreter.c || exit 1
fi

# what was done has the status and the output of the case; otherwise says how it differs
as_recorded() {
  if [ "$status" != "$wanted" ]; then
    echo "status $status for $wanted: $(head -c 200 "$room/err")"
  elif ! cmp -s "$room/out" "expect/$name.out"; then
    echo "another output: $(cmp "$room/out" "expect/$name.out" 2>&1)"
  elif [ -s "$room/err" ]; then
    echo "standard error: $(head -c 200 "$room/err")"
  else
    return 0
  fi
  return 1
}

by_qemu() {
  # (the guest has one output, of two names)
  qemu-riscv32 "$program" <"${input:-/dev/null}" >"$room/out" 2>&1
  status=$?
  : >"$room/err"
  as_recorded
}

by_interpreter() {
  "$room/interpreter" run "$program" "${words[@]}" --steps "$room/steps" >"$room/out" 2>"$room/err" </dev/null
  status=$?
  as_recorded || return 1
  [ "$(<"$room/steps")" = "$steps" ] || { echo "$(<"$room/steps") steps for $steps"; return 1; }
}

alone() {
  "$binary" run "$program" "${words[@]}" --budget "$steps" >"$room/out" 2>"$room/err" </dev/null
  status=$?
  as_recorded || return 1
  "$binary" run "$program" "${words[@]}" --budget $((steps - 1)) >/dev/null 2>"$room/err" </dev/null
  status=$?
  [ "$status" = 120 ] || { echo "with one step less: status $status for 120"; return 1; }
}

# of the noted instructions that are loads, those whose values the image lists
tell_loads() {
  local counted
  "$binary" show "$room/image" >"$room/shown" </dev/null
  counted=$(python3 loads.py "$program" "$room/shown") || { echo -n "loads aren't counted, "; return; }
  echo -n "$(grep -c '^same ' "$room/shown") of $counted loads are constants, "
  constants=$((constants + $(grep -c '^same ' "$room/shown"))) loads=$((loads + counted))
}

beside() {
  local verdict
  local with=()
  "$binary" profile "$program" "$room/profile" --calls $calls "${words[@]}" </dev/null || { echo "no profile of it"; return 1; }
  if [ $way = --values ]; then
    "$binary" values "$program" "$room/values" "${words[@]}" </dev/null || { echo "no values of it"; return 1; }
    with=(--values "$room/values")
  fi
  "$binary" distill "$program" "$room/profile" "$room/image" --rare 0 "${with[@]}" </dev/null || { echo "no image of it"; return 1; }
  [ "$("$binary" certify "$program" "$room/image")" = fits ] || { echo "its image doesn't fit"; return 1; }
  verdict=$("$binary" check "$program" "$room/image" "${words[@]}" </dev/null)
  "$binary" run "$program" --image "$room/image" --report "$room/report" "${words[@]}" >"$room/out" 2>"$room/err" </dev/null
  status=$?
  as_recorded || return 1
  by_tasks=$((by_tasks + $(sed -n 's/^by-tasks //p' "$room/report"))) in_all=$((in_all + steps))
  echo -n "$(sed -n 's/^by-tasks //p' "$room/report") of $steps steps by tasks, "
  [ $way != --values ] || tell_loads
  case $verdict in
    "met $steps")
      if ! grep -q '^squashed 0$' "$room/report" || ! grep -q '^dropped 0$' "$room/report"; then
        echo "met, and the report: $(tr '\n' ' ' <"$room/report")"
        return 1
      fi
      met=$((met + 1)) ;;
    broken*) echo -n "($verdict) " ;;
    *) echo "the check: $verdict"; return 1 ;;
  esac
}

passed=0 failed=0 met=0 by_tasks=0 in_all=0 constants=0 loads=0
while read -r name program input wanted steps; do
  [[ $way = --beside || $way = --calls || $way = --values ]] && [ "$steps" -ge $most ] && continue
  program=elf/$program.elf words=()
  if [ "$input" = - ]; then input=; else input=in/$input; words=(--input "$input"); fi
  echo -n "$name: "
  case $way in qemu) by_qemu ;; plain) by_interpreter ;; --beside | --calls | --values) beside ;; *) alone ;; esac
  if [ $? = 0 ]; then passed=$((passed + 1)); echo passed; else failed=$((failed + 1)); fi
done < <(grep -v '^#' cases.txt)

if [[ $way = --beside || $way = --calls || $way = --values ]]; then
  echo "$met runs meet the list of their image, and nothing of theirs was squashed or dropped"
  echo "$by_tasks of $in_all steps by tasks"
  [ $way != --values ] || echo "$constants of $loads loads are constants"
fi
echo "$passed passed, $failed failed"
[ "$failed" = 0 ]
