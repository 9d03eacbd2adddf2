"""A model of `pssd run`: what docs/SCRIPT.md, docs/PSDL.md and docs/RECORDS.md say of the lines of a script, put down in the plainest way. It looks at no part
of the program, keeps no tables and writes no file. It leaves out SERIALS, ENTRIES and FULL, whose limits have cases of their own."""
