title: a log of exactly 120 records: the programs read so many at once, and nothing is left for a second part

# 120 records of 544 bytes are 65,280 bytes, a whole part (crates/files). The next part is empty: no line, and no short tail.
tick 120
end idle 0
