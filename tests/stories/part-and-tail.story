title: 120 records, which the programs read at once, and one byte: the second part is a short tail and nothing else

# The tail is numbered on from the first part: it prints 120 short.
tick 120
short 1
end idle 0
