"""Simulated lines: which reel each piece really came off, and what recalls say of that.

A run is a machine with two slots, an operator with a tablet, reels of three lots, and boards. The
machine and the tablet have senders of their own (the package's, in this process), which are
delayed, have outages and are killed at any write. Reels expire, are not baked, run empty, are
unknown, or are spliced; the operator goes by a refusal or not, and so does the machine. Many runs
share one desk of the program, which is killed, copied, restored and rolled over by the tools.
Refused reports go to the line's inbox, and persons decide about some of it.

world.py has the clock, the kills and the desk, sources.py the senders, run.py what happens at a
machine, and batch.py runs that share a desk, and what recalls say of them.
"""
