#!/bin/bash
# try.sh BINARY [PAGE..]   runs the commands of the pages as printed, by the mssp program BINARY, and compares what comes
#
# The pages are TUTORIAL, SPECULATION, DISTILLING, FORMATS and THEORY, if none is named. In a block of a page a command is a line that
# begins with `$ `, with the lines of its here-document behind it; what has to come, on standard output and standard error, are the
# lines up to the next command. The commands of a page run one after the other, in a copy of the repository's examples. At its end
# the page has to leave the copy as it was.
#
# It prints a line for each command: `passed`, `skipped` with the tool that is wanting, or `FAILED` with the difference.
#
# Status: 0 all passed or skipped, 1 some failed, 2 wrong words, 77 nothing was run.

top=$(cd "$(dirname "$0")/.." && pwd) || exit 2
if [ $# = 0 ]; then
  echo "try.sh: skipped: no binary given (try.sh BINARY)"
  exit 77
fi
binary=$(realpath -- "$1")
if [ ! -f "$binary" ] || [ ! -x "$binary" ]; then
  echo "try.sh: $1 is no program" >&2
  exit 2
fi
shift
[ $# -gt 0 ] || set -- TUTORIAL SPECULATION DISTILLING FORMATS THEORY

room=$(mktemp -d) || exit 2
trap 'rm -rf "$room"' EXIT
copy=$room/repository
mkdir -p "$copy/crates/mssp/out" "$room/cases" || exit 2
cp -r "$top/examples" "$top/bench" "$copy" && cp "$binary" "$copy/crates/mssp/out/mssp" || exit 2
PATH=$copy/crates/mssp/out:$PATH

compiler=
picolibc=
if command -v riscv64-unknown-elf-gcc >/dev/null; then
  compiler=yes
  echo 'int main(void) { return 0; }' >"$room/empty.c"
  riscv64-unknown-elf-gcc --specs=picolibc.specs -march=rv32im -mabi=ilp32 -c -o "$room/empty.o" "$room/empty.c" \
    2>/dev/null && picolibc=yes
fi

# the tool that a command requires and that isn't there, if one is
wanting() {
  case $1 in
    *'rt run'*) echo 'rt, and much time' ;;
    python3*) command -v python3 >/dev/null || echo python3 ;;
    *'$library'* | *try/table.elf* | *try/float.elf* | *try/compressed.elf*) [ "$picolibc" ] || echo picolibc ;;
    *'$cc '* | *try/twice.elf* | *try/trap.elf*) [ "$compiler" ] || echo riscv64-unknown-elf-gcc ;;
  esac
}

# split PAGE: the commands of a page as cases/N.command, with what they print as cases/N.wanted
split() {
  rm -f "$room/cases/"*
  awk -v folder="$room/cases" '
    /^```/ { inside = !inside; file = ""; heredoc = ""; next }
    !inside { next }
    heredoc != "" { print > file; if ($0 == heredoc) { heredoc = ""; file = wanted }; next }
    /^\$ / {
      if (file != "") close(file)
      number++
      name = sprintf("%s/%03d", folder, number)
      wanted = name ".wanted"
      printf "" > wanted
      file = name ".command"
      print substr($0, 3) > file
      if (match($0, /<<\047[A-Z]+\047/)) heredoc = substr($0, RSTART + 3, RLENGTH - 4); else { close(file); file = wanted }
      next
    }
    file != "" { print > file }
  ' "$1"
}

files_now() { (cd "$copy" && find . -type f -o -type l | LC_ALL=C sort | xargs -d '\n' sha256sum); }

# The commands of a page run in one shell. Each begins with the status of the one before.
status_is() { return "$1"; }
run_page() {
  local page=$1 case shown need last=0 skipping=
  cd "$copy" || exit 2
  for case in "$room/cases/"*.command; do
    command=$(<"$case")
    shown=$(head -1 "$case")
    need=$(wanting "$command")
    # (a status or a file of what was skipped)
    [ "$command" = 'echo $?' ] && need=$skipping
    skipping=$need
    if [ -n "$need" ]; then
      echo "skipped $page: $shown (requires $need)"
      echo skipped >>"$room/counts"
      continue
    fi
    status_is $last
    eval "$command" >"$room/out" 2>&1 </dev/null
    last=$?
    if diff "${case%.command}.wanted" "$room/out" >"$room/differ"; then
      echo "passed $page: $shown"
      echo passed >>"$room/counts"
    else
      echo "FAILED $page: $shown"
      sed 's/^/    /' "$room/differ"
      echo failed >>"$room/counts"
    fi
  done
}

: >"$room/counts"
for page; do
  file=$top/docs/$page.md
  if [ ! -f "$file" ]; then
    echo "try.sh: there is no page $page" >&2
    exit 2
  fi
  split "$file"
  files_now >"$room/before"
  (run_page "$page")
  files_now >"$room/after"
  if diff "$room/before" "$room/after" >"$room/differ"; then
    echo "passed $page: leaves all files as they were"
    echo passed >>"$room/counts"
  else
    echo "FAILED $page: leaves other files"
    sed 's/^/    /' "$room/differ"
    echo failed >>"$room/counts"
  fi
done

count() { grep -c "^$1\$" "$room/counts"; }
echo "$(count passed) passed, $(count failed) failed, $(count skipped) skipped"
[ "$(count failed)" = 0 ]
