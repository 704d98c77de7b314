"""Limits of a desk. Made by dev/api from crates/desk_types/src/limits.rt."""

# The most minutes that a command may be ahead of the desk minute: two weeks.
FURTHEST_AHEAD = 20_160
# The longest floor life on a level 6 label, in minutes: a year.
GREATEST_LABEL = 525_600
# The last minute of the year 9999, counted from 1970-01-01T00:00Z.
GREATEST_MINUTE = 4_223_371_679
# The most bytes of a line, a file and a request body. A line's ending (LF or CR LF) isn't counted.
LONGEST_INPUT = 1_048_576
