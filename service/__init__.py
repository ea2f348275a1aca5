"""Tools for a cluster on one machine, whose replicas are processes of `themisd` (`host/`): they make,
start and close it, submit transactions, audit what happened, break things, and measure.

No proof covers this package. Python 3.11 and its standard library are all it needs, next to the
library `libthemis.so`.
"""
