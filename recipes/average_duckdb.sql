-- The average of bars as a number, and the notional in ten-thousandths of a dollar, which is exact and adds up.
-- Needs: duckdb
-- Call: duckdb -csv <recipes/average_duckdb.sql
SELECT symbol, start,
  printf('%.8f', split_part(average, '+', 1)::DOUBLE
    + split_part(split_part(average, '+', 2), '/', 1)::DOUBLE / volume::DOUBLE / 10000) AS vwap,
  replace(split_part(average, '+', 1), '.', '')::HUGEINT * volume::HUGEINT
    + split_part(split_part(average, '+', 2), '/', 1)::HUGEINT AS notional
FROM read_csv('bars.csv', header = true, all_varchar = true, quote = '');
