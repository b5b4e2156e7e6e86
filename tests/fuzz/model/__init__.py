"""A plain reading of the rules of `oil`, written without a look at its code.

`program.run(words, read)` gives the status, standard output and standard error of `oil` for the words behind its name.
Texts are `str`; lengths and places count bytes of UTF-8, by `size`.
"""
