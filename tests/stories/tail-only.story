title: a log that is one byte too short for its only record

# These 543 bytes are a Start but for the last byte. It is not replayed.
short 543
end idle 0
