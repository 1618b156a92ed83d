# The names of a list, one a line, as a query wants them: joined by commas, without blanks, empty lines and Windows' marks.
# Needs: sed, grep, paste
# Call: sh recipes/symbols.sh list.txt
sed '1s/^\xef\xbb\xbf//; s/[[:space:]]*$//' "$1" | grep . | paste -sd, -
