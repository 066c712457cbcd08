-- the least and the greatest discount of each year, and the last of its regions
select d_year, min(lo_discount), max(lo_discount), max(s_region)
from lineorder, date, supplier
where lo_orderdate = d_datekey and lo_suppkey = s_suppkey
group by d_year
order by d_year
