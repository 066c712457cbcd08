#!/usr/bin/env python3
"""Makes tables with all columns of the Star Schema Benchmark, and their catalog.

Usage: make_tables.py FOLDER [--scale S] [--seed N]

The tables have the benchmark's sizes, and values of which each of its queries keeps about its usual
share. At scale 1 the fact table has 6,000,000 rows; at another scale all tables but that of the days
shrink or grow with it, the parts above scale 1 by its logarithm. The same arguments always give the
same files.
"""

import argparse
import datetime
import math
import random
import sys
from pathlib import Path

COLUMNS = {
    "lineorder": """
        lo_orderkey int null, lo_linenumber int null, lo_custkey int null, lo_partkey int null,
        lo_suppkey int null, lo_orderdate int null, lo_orderpriority text null,
        lo_shippriority text null, lo_quantity int null, lo_extendedprice int null,
        lo_ordtotalprice int null, lo_discount int null, lo_revenue int null,
        lo_supplycost int null, lo_tax int null, lo_commitdate int null, lo_shipmode text null""",
    "customer": """
        c_custkey int key, c_name text null, c_address text null, c_city text null,
        c_nation text null, c_region text null, c_phone text null, c_mktsegment text null""",
    "supplier": """
        s_suppkey int key, s_name text null, s_address text null, s_city text null,
        s_nation text null, s_region text null, s_phone text null""",
    "part": """
        p_partkey int key, p_name text null, p_mfgr text null, p_category text null,
        p_brand1 text null, p_color text null, p_type text null, p_size int null,
        p_container text null""",
    "date": """
        d_datekey int key, d_date text null, d_dayofweek text null, d_month text null,
        d_year int null, d_yearmonthnum int null, d_yearmonth text null, d_daynuminweek int null,
        d_daynuminmonth int null, d_daynuminyear int null, d_monthnuminyear int null,
        d_weeknuminyear int null, d_sellingseason text null, d_lastdayinweekfl text null,
        d_lastdayinmonthfl text null, d_holidayfl text null, d_weekdayfl text null""",
}

NATIONS = {
    "AFRICA": ["ALGERIA", "ETHIOPIA", "KENYA", "MOROCCO", "MOZAMBIQUE"],
    "AMERICA": ["ARGENTINA", "BRAZIL", "CANADA", "PERU", "UNITED STATES"],
    "ASIA": ["CHINA", "INDIA", "INDONESIA", "JAPAN", "VIETNAM"],
    "EUROPE": ["FRANCE", "GERMANY", "ROMANIA", "RUSSIA", "UNITED KINGDOM"],
    "MIDDLE EAST": ["EGYPT", "IRAN", "IRAQ", "JORDAN", "SAUDI ARABIA"],
}
PRIORITIES = ["1-URGENT", "2-HIGH", "3-MEDIUM", "4-NOT SPECI", "5-LOW"]
MODES = ["AIR", "FOB", "MAIL", "RAIL", "REG AIR", "SHIP", "TRUCK"]
SEGMENTS = ["AUTOMOBILE", "BUILDING", "FURNITURE", "HOUSEHOLD", "MACHINERY"]
COLORS = ["almond", "azure", "blush", "coral", "forest", "ivory", "linen", "navy", "peach", "sienna"]
TYPES = ["ECONOMY BRASS", "LARGE STEEL", "MEDIUM TIN", "PROMO COPPER", "STANDARD NICKEL"]
CONTAINERS = ["JUMBO BOX", "LG CASE", "MED BAG", "SM PKG", "WRAP DRUM"]
SEASONS = ["Winter", "Spring", "Summer", "Fall", "Christmas"]
FIRST_DAY = datetime.date(1992, 1, 1)
DAYS = 2556
FACT_ROWS = 6_000_000


def sizes_at(scale):
    """How many rows each table has at a scale."""
    parts = 1 + math.log2(scale) if scale > 1 else scale
    return {
        "lineorder": max(1, round(FACT_ROWS * scale)),
        "customer": max(1, round(30_000 * scale)),
        "supplier": max(1, round(2_000 * scale)),
        "part": max(1, round(200_000 * parts)),
        "date": DAYS,
    }


def catalog_lines():
    """The records of the catalog."""
    for table, columns in COLUMNS.items():
        for column in columns.split(","):
            name, kind, role = column.split()
            yield f"{table}|{name}|{kind}|{role}\n"


def date_key(day):
    """The key of a day, by its number from 0."""
    date = FIRST_DAY + datetime.timedelta(days=day)
    return date.year * 10_000 + date.month * 100 + date.day


def dealt(draw, cards):
    """Each card once in a random order, and so again and again: each comes about equally often."""
    while True:
        yield from draw.sample(cards, len(cards))


def places(draw):
    """Cities with their nations and regions: ten cities a nation."""
    return dealt(draw, [
        (f"{nation[:9]:<9}{number}", nation, region)
        for region, nations in NATIONS.items() for nation in nations for number in range(10)
    ])


def brands(draw):
    """Makers with their categories and brands: five categories a maker, forty brands a category."""
    return dealt(draw, [
        (f"MFGR#{maker}", f"MFGR#{maker}{category}", f"MFGR#{maker}{category}{brand}")
        for maker in range(1, 6) for category in range(1, 6) for brand in range(1, 41)
    ])


def phone(draw):
    """A phone number."""
    country, area, exchange = draw.randrange(10, 35), draw.randrange(100, 1000), draw.randrange(100, 1000)
    return f"{country}-{area}-{exchange}-{draw.randrange(1000, 10000)}"


def lineorder_rows(draw, sizes):
    """The rows of the fact table: orders of one to seven lines."""
    keys = [date_key(day) for day in range(DAYS)]
    last = DAYS - 1
    customers, parts, suppliers = sizes["customer"], sizes["part"], sizes["supplier"]
    # `int(share() * n)` is a number below n, and faster than `randrange(n)`.
    share = draw.random
    order = left = 0
    for _ in range(sizes["lineorder"]):
        if left == 0:
            left = 1 + int(share() * 7)
            order += 1
            line = 0
            customer = 1 + int(share() * customers)
            day = int(share() * DAYS)
            date = keys[day]
            priority = PRIORITIES[int(share() * 5)]
            total = 100_000 + int(share() * 39_900_000)
        left -= 1
        line += 1
        quantity = 1 + int(share() * 50)
        unit = 90_000 + int(share() * 110_000)
        price = quantity * unit
        discount = int(share() * 11)
        yield (
            order, line, customer, 1 + int(share() * parts), 1 + int(share() * suppliers), date,
            priority, 0, quantity, price, total, discount, price * (100 - discount) // 100,
            unit * 6 // 10, int(share() * 9), keys[min(day + 30 + int(share() * 61), last)],
            MODES[int(share() * 7)],
        )


def customer_rows(draw, sizes):
    """The rows of the customers."""
    for key, place in zip(range(1, sizes["customer"] + 1), places(draw)):
        yield (
            key, f"Customer#{key:09}", f"address {draw.randrange(10 ** 9)}", *place, phone(draw),
            draw.choice(SEGMENTS),
        )


def supplier_rows(draw, sizes):
    """The rows of the suppliers."""
    for key, place in zip(range(1, sizes["supplier"] + 1), places(draw)):
        yield (
            key, f"Supplier#{key:09}", f"address {draw.randrange(10 ** 9)}", *place, phone(draw),
        )


def part_rows(draw, sizes):
    """The rows of the parts."""
    for key, brand in zip(range(1, sizes["part"] + 1), brands(draw)):
        color = draw.choice(COLORS)
        yield (
            key, f"{color} {draw.choice(COLORS)}", *brand, color, draw.choice(TYPES),
            draw.randrange(1, 51), draw.choice(CONTAINERS),
        )


def date_rows(_draw, sizes):
    """The rows of the days."""
    for day in range(sizes["date"]):
        date = FIRST_DAY + datetime.timedelta(days=day)
        in_year = date.timetuple().tm_yday
        in_week = date.isoweekday() % 7 + 1
        yield (
            date_key(day), f"{date:%B} {date.day}, {date.year}", f"{date:%A}", f"{date:%B}", date.year,
            date.year * 100 + date.month, f"{date:%b%Y}", in_week, date.day, in_year, date.month,
            (in_year - 1) // 7 + 1, SEASONS[date.month % 12 // 3 if date.month != 12 else 4],
            int(in_week == 7), int((date + datetime.timedelta(days=1)).day == 1),
            int(in_year == 1), int(1 < in_week < 7),
        )


ROWS = {
    "lineorder": lineorder_rows,
    "customer": customer_rows,
    "supplier": supplier_rows,
    "part": part_rows,
    "date": date_rows,
}


def make(folder, sizes, seed):
    """Writes the catalog and the tables into a folder."""
    folder.mkdir(parents=True, exist_ok=True)
    with open(folder / "catalog", "w", encoding="utf-8", newline="\n") as out:
        out.writelines(catalog_lines())
    for table, rows in ROWS.items():
        draw = random.Random(f"{table} {seed}")
        lines = ("|".join(map(str, row)) + "|\n" for row in rows(draw, sizes))
        with open(folder / f"{table}.tbl", "w", encoding="utf-8", newline="\n") as out:
            out.writelines(lines)


def main(words):
    """Makes the tables that the words ask for."""
    parser = argparse.ArgumentParser(description=__doc__.split("\n", 1)[0])
    parser.add_argument("folder", type=Path, metavar="FOLDER")
    parser.add_argument("--scale", type=float, default=0.01, metavar="S", help="1 for 6,000,000 fact rows")
    parser.add_argument("--seed", type=int, default=1, metavar="N", help="another one gives other values")
    given = parser.parse_args(words)
    make(given.folder, sizes_at(given.scale), given.seed)


if __name__ == "__main__":
    main(sys.argv[1:])
