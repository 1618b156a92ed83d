# The sum of sales by hand: trades, shares, notional in ten-thousandths of a dollar, and the average as an answer has it.
# Needs: awk
# Call: awk -F, -f recipes/sum.awk traced.csv
$1 ~ /^[0-9]/ { sub(/[.]/, "", $4); trades++; shares += $5; notional += $4 * $5 }
END { average = int(notional / shares)
  printf "%d trades, %.0f shares, notional %.0f: %d.%04d+%.0f/%.0f\n",
    trades, shares, notional, average / 10000, average % 10000, notional % shares, shares }
