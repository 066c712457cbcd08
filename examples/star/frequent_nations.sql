-- nations whose suppliers sold more than once, and what they earned, the greatest first
select s_nation, sum(lo_revenue) as revenue
from lineorder, supplier
where lo_suppkey = s_suppkey
group by s_nation
having count(*) > 1
order by revenue desc
