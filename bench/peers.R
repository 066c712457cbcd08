# Loads a folder's tables by data.table, and answers the benchmark's queries, as a user of R would write them.
#
# Usage: Rscript peers.R FOLDER OUT THREADS [NAME..]
#
# Prints the seconds of the load, and for each query its name and seconds; its rows go to OUT/NAME.

suppressMessages(library(data.table))

words <- commandArgs(trailingOnly = TRUE)
folder <- words[1]
out <- words[2]
setDTthreads(as.integer(words[3]))
asked <- words[-(1:3)]

catalog <- fread(file.path(folder, "catalog"), sep = "|", header = FALSE, quote = "")

load_table <- function(table) {
    columns <- catalog[V1 == table, V2]
    fread(
        file.path(folder, paste0(table, ".tbl")), sep = "|", header = FALSE, quote = "", na.strings = "",
        select = seq_along(columns), col.names = columns, strip.white = FALSE
    )
}

# The fact rows that `kept` keeps and that have a row in each dimension, with the columns that `gives` names.
# A dimension is given by its rows, its key and the fact column that holds it.
star <- function(kept, ...) {
    dimensions <- list(...)
    for (it in dimensions) {
        kept <- kept & lineorder[[it$from]] %in% it$rows[[it$key]]
    }
    facts <- lineorder[which(kept)]
    for (it in dimensions) {
        place <- match(facts[[it$from]], it$rows[[it$key]])
        for (name in it$gives) {
            set(facts, j = name, value = it$rows[[name]][place])
        }
    }
    facts
}

of_date <- function(rows, gives = "d_year") list(rows = rows, key = "d_datekey", from = "lo_orderdate", gives = gives)
of_part <- function(rows, gives = NULL) list(rows = rows, key = "p_partkey", from = "lo_partkey", gives = gives)
of_customer <- function(rows, gives = NULL) list(rows = rows, key = "c_custkey", from = "lo_custkey", gives = gives)
of_supplier <- function(rows, gives = NULL) list(rows = rows, key = "s_suppkey", from = "lo_suppkey", gives = gives)

discounted <- function(kept, days) {
    star(kept, of_date(days, NULL))[, .(revenue = sum(as.numeric(lo_extendedprice) * lo_discount))]
}

by_brand <- function(parts, suppliers) {
    star(TRUE, of_date(date), of_part(parts, "p_brand1"), of_supplier(suppliers))[
        , .(revenue = sum(as.numeric(lo_revenue))), keyby = .(d_year, p_brand1)
    ][, .(revenue, d_year, p_brand1)]
}

by_place <- function(customers, suppliers, days, place) {
    names <- paste0(c("c_", "s_"), place)
    facts <- star(TRUE, of_date(days), of_customer(customers, names[1]), of_supplier(suppliers, names[2]))
    setorder(facts[, .(revenue = sum(as.numeric(lo_revenue))), by = c(names, "d_year")], d_year, -revenue)
}

profit <- function(days, customers, suppliers, parts, by) {
    gives <- function(prefix) grep(prefix, by, value = TRUE)
    star(
        TRUE, of_date(days), of_customer(customers, gives("^c_")), of_supplier(suppliers, gives("^s_")),
        of_part(parts, gives("^p_"))
    )[, .(profit = sum(as.numeric(lo_revenue) - lo_supplycost)), keyby = by]
}

years <- function() date[d_year >= 1992 & d_year <= 1997]
kings <- c("UNITED KI1", "UNITED KI5")
makers <- c("MFGR#1", "MFGR#2")

queries <- list(
    Q1.1 = function() lineorder[, discounted(lo_discount %between% c(1, 3) & lo_quantity < 25, date[d_year == 1993])],
    Q1.2 = function() lineorder[, discounted(
        lo_discount %between% c(4, 6) & lo_quantity %between% c(26, 35), date[d_yearmonthnum == 199401]
    )],
    Q1.3 = function() lineorder[, discounted(
        lo_discount %between% c(5, 7) & lo_quantity %between% c(26, 35), date[d_weeknuminyear == 6 & d_year == 1994]
    )],
    Q2.1 = function() by_brand(part[p_category == "MFGR#12"], supplier[s_region == "AMERICA"]),
    Q2.2 = function() by_brand(part[p_brand1 >= "MFGR#2221" & p_brand1 <= "MFGR#2228"], supplier[s_region == "ASIA"]),
    Q2.3 = function() by_brand(part[p_brand1 == "MFGR#2221"], supplier[s_region == "EUROPE"]),
    Q3.1 = function() by_place(customer[c_region == "ASIA"], supplier[s_region == "ASIA"], years(), "nation"),
    Q3.2 = function() by_place(
        customer[c_nation == "UNITED STATES"], supplier[s_nation == "UNITED STATES"], years(), "city"
    ),
    Q3.3 = function() by_place(customer[c_city %in% kings], supplier[s_city %in% kings], years(), "city"),
    Q3.4 = function() by_place(
        customer[c_city %in% kings], supplier[s_city %in% kings], date[d_yearmonth == "Dec1997"], "city"
    ),
    Q4.1 = function() profit(
        date, customer[c_region == "AMERICA"], supplier[s_region == "AMERICA"], part[p_mfgr %in% makers],
        c("d_year", "c_nation")
    ),
    Q4.2 = function() profit(
        date[d_year %in% c(1997, 1998)], customer[c_region == "AMERICA"], supplier[s_region == "AMERICA"],
        part[p_mfgr %in% makers], c("d_year", "s_nation", "p_category")
    ),
    Q4.3 = function() profit(
        date[d_year %in% c(1997, 1998)], customer[c_region == "AMERICA"], supplier[s_nation == "UNITED STATES"],
        part[p_category == "MFGR#14"], c("d_year", "s_city", "p_brand1")
    )
)

seconds <- function(act) system.time(act())[["elapsed"]]

took <- seconds(function() for (table in unique(catalog$V1)) assign(table, load_table(table), envir = globalenv()))
cat("load", took, "\n")
for (name in asked) {
    took <- seconds(function() rows <<- queries[[name]]())
    cat(name, took, "\n")
    fwrite(rows, file.path(out, name), sep = "|", col.names = FALSE, quote = FALSE, scipen = 50)
}
