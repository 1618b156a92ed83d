# One table of the answers over several days, packed or not, with each day's date in front.
# Needs: bash, gzip, awk
# Call: bash recipes/days.sh "bars 24 h where symbol in MSFT" 2030-01-02 data/whole_day.itch.gz 2030-01-03 data/example.itch
set -eu -o pipefail
[ $# -ge 3 ] && [ $(($# % 2)) = 1 ] || { echo "wanted: QUERY DATE DAY [DATE DAY].." >&2; exit 2; }
query=$1 header=date,
shift
part=$(mktemp)
trap 'rm -f "$part"' EXIT
while [ $# -gt 0 ]; do
  gzip -cdf "$2" | itch_bars - "$query" >"$part" || { echo "$2: no answer" >&2; exit 1; }
  awk -v date="$1," -v header="$header" 'NR > 1 { print date $0 } NR == 1 && header { print header $0 }' "$part"
  header=
  shift 2
done
