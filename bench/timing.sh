# What the scripts share that time whole runs of the built program, each with its files. They are no part of the gate.
set -eu
top=$(cd "$(dirname "$0")/.." && pwd)
program=$top/crates/viaduct/out/viaduct
left=$(mktemp -d)
trap 'rm -rf "$left"' EXIT
runs=5

[ -x "$program" ] || "$top/viaduct" --proved --version >&2

# Runs the program with these words so often, and prints its last line, what the job is, and the least of the times.
timed() {
  local job=$1 best='' TIMEFORMAT='%R %U' line k
  shift
  for ((k = 0; k < runs; k++)); do
    { time "$program" "$@" > "$left/out" 2> "$left/err" || true; } 2> "$left/time"
    read -r line < "$left/time"
    if [ -z "$best" ] || [ "$(printf '%s\n%s\n' "$line" "$best" | sort -n | head -1)" = "$line" ]; then best=$line; fi
  done
  printf '%-58s %s s, of the processor %s s: %s\n' "$job" ${best% *} ${best#* } "$(tail -qn 1 "$left/out" "$left/err" | tail -n 1)"
}
