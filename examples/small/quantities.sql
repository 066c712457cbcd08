select sum(lo_quantity) from lineorder
