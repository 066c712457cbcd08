select sum(lo_revenue) from lineorder
