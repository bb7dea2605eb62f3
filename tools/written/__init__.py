"""What tools/protocol.py is made of: the tables (`table`, `lines`, `numbers`, `named`), the regions of files (`fences`,
`regions`) and what writes each kind of region (`code`, `definitions`, `proofs`, `package`, `page`, `checks`,
`record_tool`)."""
