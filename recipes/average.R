# The average of bars as a number, and the notional in ten-thousandths of a dollar, which adds up.
# Needs: Rscript
# Call: Rscript recipes/average.R bars.csv
file <- commandArgs(TRUE)[1]
bars <- read.csv(file, quote = "", na.strings = character(0), colClasses = c(symbol = "character"))
part <- do.call(rbind, strsplit(bars$average, "[+/]"))
vwap <- as.numeric(part[, 1]) + as.numeric(part[, 2]) / as.numeric(part[, 3]) / 10000
notional <- as.numeric(sub(".", "", part[, 1], fixed = TRUE)) * bars$volume + as.numeric(part[, 2])
cat("symbol,start,vwap,notional\n", sprintf("%s,%s,%.8f,%.0f\n", bars$symbol, bars$start, vwap, notional), sep = "")
