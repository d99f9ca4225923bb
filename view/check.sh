#!/bin/bash
# check.sh [BINARY] [--measure]   tests of view/ by the mssp program BINARY (crates/mssp/out/mssp without one)
#
# What wants a package of Python's, a browser or a compiler that isn't there is skipped with a line that says so; where the
# built program is missing, everything is. Of python3 and /usr/bin/python3 the first that has the packages is taken.
#
# With --measure it opens a page of 100,000 events of mix beside its distilled image in Chromium instead, and prints how long
# that took.
#
# Status: 0 all passed or skipped, 1 some failed, 2 wrong words.

here=$(cd "$(dirname "$0")" && pwd) || exit 2
case ${1---} in --*) binary=$here/../crates/mssp/out/mssp ;; *) binary=$1; shift ;; esac
if [ ! -f "$binary" ] || [ ! -x "$binary" ]; then
  echo "view/check.sh: skipped: the program isn't built ($binary)"
  exit 0
fi
python=
for found in python3 /usr/bin/python3; do
  command -v "$found" >/dev/null || continue
  python=${python:-$found}
  if "$found" -c 'import elftools, matplotlib' 2>/dev/null; then python=$found; break; fi
done
if [ -z "$python" ]; then
  echo "view/check.sh: skipped: there is no python3"
  exit 0
fi
exec "$python" -B "$here/check.py" "$binary" "$@"
