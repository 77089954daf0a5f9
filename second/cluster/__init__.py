"""A second reading of the cluster of peers and its steps, written apart from the program and from its definitions.

refusal.py   what a step answers
version.py   version vectors
record.py    records, nodes, contents, being clean, conflict names
choice.py    the best record of a name, and whether it is wanted
index.py     a device's own index, its views of others, from where an index is sent
store.py     a store in memory, whose calls may fail
link.py      messages and links
replica.py   one folder at one device: scan, override, revert, pull, finish
exchange.py  sessions: begin, announce, ask, deliver
step.py      the fifteen steps, as values
core.py      the cluster, and what each step does to it
"""
