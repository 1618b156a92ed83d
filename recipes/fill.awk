# A line for each interval from a security's first bar to its last: one without a trade has the last price and no volume.
# Needs: awk
# Call: awk -F, -v width=10 -f recipes/fill.awk bars.csv
function clock(s) { return sprintf("%02d:%02d:%02d", s / 3600, s / 60 % 60, s % 60) }
BEGIN { OFS = "," }
NR == 1 { print $1, $2, $6, $7; next }
{ split($2, t, ":"); now = t[1] * 3600 + t[2] * 60 + t[3] }
$1 == name { for (at += width; at < now; at += width) print name, clock(at), last, 0 }
{ print $1, $2, $6, $7; name = $1; at = now; last = $6 }
