title: document 01's printed example: Start, Start by another host, tick, and 10 bytes over

# tests/stdout holds the replay of this log to the page's text, letter by letter.
host 1 start                    => 0
host 2 start                    => 7/1
tick
short 10
end receiving 1
