# The average of bars as a number, and the notional in ten-thousandths of a dollar, which is exact and adds up.
# Needs: python3 with pandas
# Call: python3 recipes/average.py bars.csv
import sys
import pandas as pd

bars = pd.read_csv(sys.argv[1], keep_default_na=False, quoting=3, dtype={"symbol": str})
part = bars.average.str.extract(r"^([\d.]+)\+(\d+)/(\d+)$")
bars["vwap"] = part[0].astype(float) + part[1].astype(float) / part[2].astype(float) / 10000
bars["notional"] = part[0].str.replace(".", "", regex=False).map(int) * part[2].map(int) + part[1].map(int)
print(bars[["symbol", "start", "vwap", "notional"]].to_csv(index=False, float_format="%.8f"), end="")
