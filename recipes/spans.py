# The same as spans.awk in pandas.
# Needs: python3 with pandas
# Call: python3 recipes/spans.py recipes/orders.csv sales.csv
import sys
import pandas as pd

orders = pd.read_csv(sys.argv[1], keep_default_na=False, dtype=str)
wrong = orders.order[~orders.side.str.contains("^[BbSs]")]
if len(wrong):
    sys.exit(f"order {wrong.iloc[0]}: a side begins with B or S")
sales = pd.read_csv(sys.argv[2], keep_default_na=False, quoting=3, dtype={"symbol": str, "price": str})
sales["at"] = pd.to_timedelta(sales.time)
sales["notional"] = sales.price.str.replace(".", "", regex=False).astype("int64") * sales.shares
sales = sales.sort_values("at", kind="stable")
of_symbol = {symbol: own for symbol, own in sales.groupby("symbol")}
print("order,symbol,volume,vwap,percent,cost,arrival,arrival_cost")
for order in orders.itertuples():
    own = of_symbol.get(order.symbol, sales[:0])
    since, until = own["at"].searchsorted([pd.Timedelta(order.since), pd.Timedelta(order.until)])
    span, sign = own[since:until], -1 if order.side[:1] in ("S", "s") else 1
    volume = span.shares.sum()
    vwap = span.notional.sum() / volume / 10000 if volume else 0
    arrival = own.price.iloc[since - 1] if since else ""
    price = float(order.price or 0)
    cost, arrival_cost = (f"{(price / float(it) - 1) * sign * 10000:.2f}" if it and price else "" for it in (vwap, arrival))
    share = f"{100 * float(order.shares) / volume:.1f}" if volume else ""
    print(order.order, order.symbol, volume, f"{vwap:.6f}" if volume else "", share, cost, arrival, arrival_cost, sep=",")
