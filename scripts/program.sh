# Sourced by scripts that run the proved program. Sets `top`, the root of the repository, `program`, and `work`, a folder for files
# that goes away at the end. Ends the script where the program isn't built.
set -u
top=$(cd "$(dirname "$0")/.." && pwd) || exit 1
script=$(basename "$0" .sh)
program=$top/crates/rvd_main/out/rvd_main
[ -x "$program" ] || { echo "$script: build the program first: rt ci, or ./rvd show FILE"; exit 1; }
work=$(mktemp -d) || exit 1
trap 'rm -rf "$work"' EXIT

# Skips the script where a command is missing.
needs() {
  command -v "$1" >/dev/null || { echo "$script: skipped, no $1"; exit 0; }
}
