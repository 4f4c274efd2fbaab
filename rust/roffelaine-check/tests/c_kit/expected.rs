//! What the programs of the C kit are to print, written by hand from the paper.

/// `examples/day.c`: case (e) of the paper's day to compare with, twice, and once
/// more with 120,000 yuan and a tenth of it in place of the 3,000 of 600036, of
/// which no stock moves then.
pub const EXAMPLE: &str = "\
test create ok 8
510300 B 1000000 0.000 0.000
600000 S 3072 0.000 0.000
600036 S 3000 0.000 0.000
510305 B 1000000 0.113 113000.000
510305 B 1 600.000 600.000
510302 B 1000000 0.173 173000.000
510302 B 1 408.000 408.000
510301 B 1000000 0.000 0.000
investor 1 1 510300 1000000
investor 2 2 600000 3072
investor 2 2 600036 3000
investor 3 1 000000 0 1 173408.000 2 113600.000
fund 1 2 510300 1000000
fund 2 1 600000 3072
fund 2 1 600036 3000
fund 3 2 000000 0 1 173408.000 2 113600.000
redeem refused 9 0: short of stock or units
units old 0 bought 0 got 1000000
price ok 0
price ok 0
price ok 0
value ok 4257
create ok 8
redeem refused 9 0: short of stock or units
510300 B 1000000 0.000 0.000
600000 S 3072 0.000 0.000
600036 S 3000 0.000 0.000
510305 B 1000000 0.113 113000.000
510305 B 1 600.000 600.000
510302 B 1000000 0.173 173000.000
510302 B 1 408.000 408.000
510301 B 1000000 0.000 0.000
investor 1 1 510300 1000000
investor 2 2 600000 3072
investor 2 2 600036 3000
investor 3 1 000000 0 1 173408.000 2 113600.000
fund 1 2 510300 1000000
fund 2 1 600000 3072
fund 2 1 600036 3000
fund 3 2 000000 0 1 173408.000 2 113600.000
line 4, column 14: a field of the list is not written as it must be
line 26, column 28: a field of the list is not written as it must be
test create ok 7
510300 B 1000000 0.000 0.000
600000 S 3072 0.000 0.000
510305 B 1000000 0.113 113000.000
510305 B 1 600.000 600.000
510302 B 1000000 0.305 305000.000
510302 B 1 408.000 408.000
510301 B 1000000 0.000 0.000
investor 1 1 510300 1000000
investor 2 2 600000 3072
investor 3 1 000000 0 1 305408.000 2 113600.000
fund 1 2 510300 1000000
fund 2 1 600000 3072
fund 3 2 000000 0 1 305408.000 2 113600.000
redeem refused 9 0: short of stock or units
";

/// `empty_runs.c`: by call, what it answers with no run empty, with each run
/// alone empty, and with all. A name and letters answer their length.
pub const EMPTY_RUNS: &str = "\
open 0, fund 1, table 0, component_run 1, holdings 1, book 1, prices 1, day 1, all 1
open, no account 1, fund 1, table 1, component_run 1, holdings 1, book 1, prices 1, day 1, all 1
price 0, day 5, book 5, prices 5, all 5
trade 0, day 5, book 5, prices 5, all 5
reference_value 0, day 5, book 5, prices 5, all 5
create 0, day 5, book 5, prices 5, records 16, investor 16, fund 16, all 5
redeem 0, day 5, book 5, prices 5, records 16, investor 16, fund 16, all 5
creation_test 0, day 5, book 5, prices 5, all 5
redemption_test 0, day 5, book 5, prices 5, all 5
run 0, day 0, book 0, prices 0, rows 1, records 0, investor 0, fund 0, answers 1, all 0
run_public 0, day 0, book 0, prices 0, rows 1, records 0, investor 0, fund 0, answers 1, all 0
read 0, text 18, table 0, component_run 16, fields 1, all 1
name 8, text 0, part 8, all 0
letters 6, text 0, part 6, all 0
write 0, fields 1, table 0, component_run 1, names 1, letters 2, output 16, all 1
not open
price 5, day 5, book 5, prices 5, all 5
trade 5, day 5, book 5, prices 5, all 5
reference_value 5, day 5, book 5, prices 5, all 5
create 5, day 5, book 5, prices 5, records 5, investor 5, fund 5, all 5
redeem 5, day 5, book 5, prices 5, records 5, investor 5, fund 5, all 5
creation_test 5, day 5, book 5, prices 5, all 5
redemption_test 5, day 5, book 5, prices 5, all 5
run 0, day 0, book 0, prices 0, rows 1, records 0, investor 0, fund 0, answers 1, all 0
run_public 0, day 0, book 0, prices 0, rows 1, records 0, investor 0, fund 0, answers 1, all 0
";

/// `tests_alone.c`: a basket of the paper's day makes 8 records and 4 reports,
/// created or redeemed; an order and its tests alone answer the same.
pub const TESTS_ALONE: &str = "\
creation, lists just enough: 0 0 8 4
creation, records a number short: 16 0 0 0
creation, investor's a number short: 16 0 0 0
creation, fund's a number short: 16 0 0 0
creation, a price out of range: 5 0 0 0
redemption, lists just enough: 0 0 8 4
redemption, records a number short: 16 0 0 0
redemption, investor's a number short: 16 0 0 0
redemption, fund's a number short: 16 0 0 0
redemption, a price out of range: 5 0 0 0
";

/// `vectors.cpp`: every call in the header's order with all its runs empty.
pub const VECTORS: &str = "\
answers 1 5 5 5 5 5 5 5 0 0 1 0 0 1
the count of accounts or components is out of range, or a lent run has another length than they need
";

/// `longest_text.c`: 2 for a field and 3 for a component past its range.
pub const LONGEST_TEXT: &str = "\
written: 0, 17969 bytes
read: 0, 300 components
[ETFABCDEFGH]
a byte less: 16
a letter more: 2
a digit more in the text: 179700 tried, 0 accepted
first code 999999: 2 0
basket size 100000000: 2 0
cash ratio 1000000: 2 0
switch 10: 2 0
estimated cash 10000000000: 2 0
estimated cash below zero 1000000000: 2 0
limit 1000099989999: 2 0
limit 1000099989999: 2 0
limit 1000099989999: 2 0
limit 1000099989999: 2 0
limit 1000099989999: 2 0
limit 1000099989999: 2 0
limit 1000099989999: 2 0
limit 1000099989999: 2 0
Publish 10: 2 0
TradingDay 100000101: 2 0
PreTradingDay 100000101: 2 0
CashComponent below zero 1000000000: 2 0
CashComponent 10000000000: 2 0
NAVperCU 100000000000: 2 0
NAV 10000000: 2 0
components 1000: 1 0
code 1000000: 3 299
quantity 100000000: 3 299
flag 10: 3 299
premium 1000000: 3 299
discount 1000000: 3 299
amount 100000000000: 3 299
";

/// `utilities.c`, behind the refusals. Account 1 pays 287,008 yuan for its
/// creation, gets 244,400 for its redemption and sells 1,000 units at 0.426.
pub const UTILITIES: &str = "\
place 0: 1:1
place 1: 1:2
place 2: 1:3
place 3: 1:4
place 4: 2:1
place 5: 2:2
place 6: 3:1
place 7: 4:1
place 8: 4:2
place 9: 4:2
empty text: 1:1
first component: 23:1
line of 000000: none
line of 000001: 0
line of 000002: 1
line of 000003: none
line of 510299: none
line of 510300: 5
line of 510301: none
line of 600000: 2
line of 600036: 3
line of 600519: 4
line of 600520: none
flag 0 1 0 0 0 1 1 1
flag 1 1 1 1 0 1 1 1
flag 2 0 0 0 1 1 0 1
flag 3 0 0 1 1 0 1 1
flag 4 0 0 0 1 0 0 1
flag 5 0 0 0 0 0 0 0
flag 6 0 0 0 0 0 0 0
flag 7 0 0 0 0 0 0 0
flag 8 0 0 0 0 0 0 0
flag 9 0 0 0 0 0 0 0
flag 10 0 0 0 0 0 0 0
last row starts 1
last row ends 7
row before ends 0
accounts 3
components 5
first code 510300
basket size 1000000
cash ratio 5000
switch 1
estimated cash -33122
first limit 0
Publish 1
TradingDay 20250630
PreTradingDay 20250627
CashComponent -32958
NAVperCU 42566878
NAV 4257
Recordnum 5
component 1 8000 3 10000 10000 96000000
component 7 8 9 10 11 12
signed -1000000000000000000 5
answer 0 0 8 4
answer 0 0 8 4
answer 0 0 0 0
answer 0 0 4257 0
answer 6 0 0 0
510300 S 1000000 0 0
600000 B 5200 0 0
600036 B 3000 0 0
510305 S 1000000 94 94000000
510305 S 1 400000 400000
510302 S 1000000 150 150000000
510302 S 1 0 0
510301 S 1000000 0 0
investor 1 2 510300 1000000 0 0 0 0 0 0
investor 2 1 600000 5200 0 0 0 0 0 0
investor 2 1 600036 3000 0 0 0 0 0 0
investor 3 2 0 0 1 150000000 2 94400000 0 0
fund 1 1 510300 1000000 0 0 0 0 0 0
fund 2 2 600000 5200 0 0 0 0 0 0
fund 2 2 600036 3000 0 0 0 0 0 0
fund 3 1 0 0 1 150000000 2 94400000 0 0
side ?
row 1 2 3 0 0 0 0 0 0
row 2 4 5 6 7 8 0 0 0
row 3 9 10 11 12 13 14 15 16
row 4 9 10 11 12 13 14 15 16
row 5 0 0 0 0 0 0 0 0
account 1: cash 957818000 created 1000000 redeemed 1000000
0 0 0
0 0 0
0 0 5200
0 0 3000
0 0 0
0 0 999000
account 2: cash 74000 created 0 redeemed 0
0 0 0
0 0 0
0 0 0
0 0 0
0 0 0
0 1000 0
";
