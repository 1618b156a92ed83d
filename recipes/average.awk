# Bars with two columns more: the average as a number, and the notional in ten-thousandths of a dollar, which adds up.
# Needs: awk
# Call: awk -f recipes/average.awk bars.csv
BEGIN { FS = OFS = "," }
NR == 1 { print $0, "vwap", "notional"; next }
{ split($NF, part, /[+\/]/); vwap = part[1] + part[2] / part[3] / 10000; sub(/\./, "", part[1])
  print $0, sprintf("%.8f", vwap), sprintf("%.0f", part[1] * part[3] + part[2]) }
