# The times of sales as nanoseconds since midnight: a double has no room for a date and nanoseconds, and for these it has.
# Needs: Rscript
# Call: Rscript recipes/times.R open.csv
file <- commandArgs(TRUE)[1]
sales <- read.csv(file, quote = "", na.strings = character(0), colClasses = c(time = "character", symbol = "character"))
part <- do.call(rbind, strsplit(sub(".", "", sales$time, fixed = TRUE), ":"))
ns <- as.numeric(part[, 1]) * 3600e9 + as.numeric(part[, 2]) * 60e9 + as.numeric(part[, 3])
cat(sprintf("%s %.0f\n", sales$time, ns), sep = "")
