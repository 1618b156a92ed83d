-- The average of bars as a number, in SQLite, to which every column is a text: cast before you compare or compute.
-- Needs: sqlite3
-- Call: sqlite3 :memory: <recipes/average_sqlite.sql
.mode csv
.import bars.csv bars
.mode list
.separator ,
.headers on
SELECT symbol, start, printf('%.8f', substr(average, 1, instr(average, '+') - 1)
  + 1.0 * substr(average, instr(average, '+') + 1) / volume / 10000) AS vwap FROM bars;
