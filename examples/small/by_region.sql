-- what each region's suppliers earned in each year
select sum(lo_revenue) as revenue, d_year, s_region
from lineorder, date, supplier
where lo_orderdate = d_datekey and lo_suppkey = s_suppkey
  and d_year between 1992 and 1997 and not (s_region = 'ASIA')
group by d_year, s_region
order by d_year desc, revenue;
