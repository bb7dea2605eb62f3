"""A page of the lobby for a browser: who is logged in, which battles are open and who is in them, and the channels.

`rudderraisin_status` logs in as any client does, and serves what it sees at an address of the machine: the page, the
same as JSON, and numbers for Prometheus. docs/OPERATING.md says how to run it.
"""
