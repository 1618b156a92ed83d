# The times of sales with their date and zone, to the nanosecond, and as nanoseconds since 1970.
# Needs: python3 with pandas
# Call: python3 recipes/times.py open.csv 2030-01-02
import sys
import pandas as pd

sales = pd.read_csv(sys.argv[1], keep_default_na=False, quoting=3, dtype={"symbol": str})
sales["at"] = (pd.Timestamp(sys.argv[2]) + pd.to_timedelta(sales.time)).dt.tz_localize("America/New_York")
for at in sales["at"]:
    print(at.isoformat(), at.value)
