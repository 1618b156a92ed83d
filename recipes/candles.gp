# Candlesticks of one security's bars, with the width of a bar in seconds and a title: an image as wide as it has bars.
# Needs: gnuplot
# Call: gnuplot -c recipes/candles.gp candles.csv candles.png 300 "MSFT, bars of 5 minutes"
bars = int(system("grep -c : ".ARG1))
set terminal pngcairo size 150 + 10 * (bars > 50 ? bars : 50), 420
set output ARG2
set datafile separator ","
set xdata time
set format x "%H:%M"
set offsets ARG3, ARG3, 0.05, 0.05
set title ARG4 noenhanced
set ylabel "dollars"
set style fill solid
set boxwidth 0.7 * ARG3 absolute
plot ARG1 skip 1 using (timecolumn(2, "%H:%M:%S")):3:5:4:6:($6 < $3 ? 0xc0392b : 0x2a9d5c) \
  with candlesticks linecolor rgb variable notitle
