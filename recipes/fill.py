# The same as fill.awk in pandas: bars, and the seconds of their width.
# Needs: python3 with pandas
# Call: python3 recipes/fill.py bars.csv 10
import sys
import pandas as pd

bars = pd.read_csv(sys.argv[1], keep_default_na=False, quoting=3, dtype={"symbol": str, "last": str})
width = pd.Timedelta(seconds=int(sys.argv[2]))
at = pd.to_timedelta(bars.start)
is_followed = bars.symbol == bars.symbol.shift(-1)
lines = ((at.shift(-1) - at) / width).where(is_followed, 1).astype(int)
filled = bars.loc[bars.index.repeat(lines), ["symbol", "start", "last", "volume"]]
nth = filled.groupby(level=0).cumcount()
filled["start"] = (at[filled.index] + nth * width).astype(str).str[-8:]
filled["volume"] = filled.volume.where(nth == 0, 0)
print(filled.to_csv(index=False), end="")
