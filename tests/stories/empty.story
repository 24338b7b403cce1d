title: a log with no bytes: heading and end, and no short tail

end idle 0
