# The sales but for those of a list of match numbers, one a line: the market without your own trades.
# Needs: awk
# Call: awk -F, -f recipes/without.awk own.txt sales.csv
NR == FNR { sub(/[ \r]*$/, ""); own[$0]; next }
!($6 in own)
