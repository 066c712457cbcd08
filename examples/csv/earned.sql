-- what each product earned, in cents, and of how many sales the units are known
select name, sum(cents) as earned, count(units), count(*)
from sales, products where sales.product = products.product
group by name order by earned desc;
