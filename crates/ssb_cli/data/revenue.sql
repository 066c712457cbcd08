select sum(lo_revenue), d_year, s_region
from lineorder, date, supplier
where lo_orderdate = d_datekey and lo_suppkey = s_suppkey
group by d_year, s_region
order by d_year, s_region
