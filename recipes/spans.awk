# The market in each order's span: volume, VWAP, the order's share, its cost against VWAP and arrival price in basis points.
# Needs: awk
# Call: awk -F, -f recipes/spans.awk recipes/orders.csv sales.csv
function clock(t) { return t ~ /^[0-9]:/ ? "0" t : t }
function cost(i, market) { return market && price[i] + 0 ? sprintf("%.2f", (price[i] / market - 1) * (side[i] ~ /^[Ss]/ ? -1 : 1) * 10000) : "" }
BEGIN { TIME = "^[0-9][0-9]:[0-5][0-9]:[0-5][0-9]([.][0-9]+)?$" }
NR == FNR { gsub(/["\r]/, "")
  if (FNR == 1) columns = NF
  if (FNR == 1 || $0 == "") next
  n++; name[n] = $1; symbol[n] = $2; side[n] = $3; since[n] = clock($4); until[n] = clock($5); own[n] = $6; price[n] = $7
  if (since[n] !~ TIME || until[n] !~ TIME) why = "a time isn't as 09:31:07 or 9:31:07.25"
  if ($3 !~ /^[BbSs]/) why = "a side begins with B or S"
  if (NF != columns) why = "it has " NF " columns, and the header " columns
  if (why) { print "order " $1 ": " why >"/dev/stderr"; exit failed = 1 }
  of[$2] = of[$2] " " n; next }
$2 in of { shares = $5; amount = $4; sub(/[.]/, "", amount)
  for (k = split(of[$2], list, " "); k > 0; k--) { i = list[k]
    if ($1 < since[i]) arrival[i] = $4
    else if ($1 < until[i]) { volume[i] += shares; sum[i] += amount * shares } } }
END { if (failed) exit 1
  print "order,symbol,volume,vwap,percent,cost,arrival,arrival_cost"
  for (i = 1; i <= n; i++) { vwap = volume[i] ? sum[i] / volume[i] / 10000 : 0
    printf "%s,%s,%.0f,%s,%s,%s,%s,%s\n", name[i], symbol[i], volume[i], vwap ? sprintf("%.6f", vwap) : "",
      vwap ? sprintf("%.1f", 100 * own[i] / volume[i]) : "", cost(i, vwap), arrival[i], cost(i, arrival[i]) } }
