# What the scripts beside it begin with: the program, a room for the files of its sessions, which goes at the end, tables and a script
# without a line, and a script of one run. The program is the script's first word, or else ./cilkreport as it is built.
program=$(realpath "${1:-$(dirname "$0")/../../crates/cilkreport/out/cilkreport}")
room=$(mktemp -d)
trap 'rm -rf "$room"' EXIT
: > "$room/tables"
: > "$room/nothing"
echo run > "$room/once"
