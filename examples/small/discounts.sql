SELECT SUM(lo_discount) FROM lineorder;
