# Writes the answer over a day, packed or not, to a file; or leaves that file as it was, and fails. Options may follow.
# Needs: bash, gzip
# Call: bash recipes/answer.sh data/whole_day.itch.gz "bars 1 h" hours.csv
set -eu -o pipefail
gzip -cdf "$1" | itch_bars - "$2" "${@:4}" >"$3.part" || { rm -f "$3.part"; echo "$1: no answer" >&2; exit 1; }
mv "$3.part" "$3"
