# The record of an answer in NAME.txt: what was asked, of which bytes, by which program, when and where; the answer in NAME.csv.
# Needs: bash, gzip, sha256sum
# Call: bash recipes/keep.sh data/example.itch "bars 5 m where symbol in MSFT" record
set -eu -o pipefail
day=$1 query=$2 name=$3 status=0
: <"$day"
program=$(readlink -f "$(command -v itch_bars)")
top=${program%/bin/itch_bars}
# (in the repository that is a script, which runs the program; bin/build ends at once if it is up to date)
if [ -e "$top/crates.txt" ]; then
  "$top/bin/build"
  program=$top/crates/itch_bars/out/itch_bars
fi
{ gzip -cdf "$day" | "$program" - "$query"; } >"$name.csv" 2>"$name.fault" || { status=$?; : >"$name.csv"; }
{
  date -u '+%F %T UTC'
  uname -srm
  echo "query $query"
  echo "status $status"
  cat "$name.fault"
  sha256sum "$day" "$name.csv" "$program" "$(command -v trace_sales)"
  "$program" --version
  for it in "${program%/*}" "$top/share/doc/itch_bars"; do
    [ ! -f "$it/built_from" ] || cat "$it/built_from"
  done
  if [ -e "$top/.git" ]; then
    git -C "$top" log -1 --format='commit %H'
    git -C "$top" status --short
  fi
} >"$name.part"
mv "$name.part" "$name.txt"
rm "$name.fault"
exit "$status"
