# The first refusal of a request wins: its type, its form, who asks, the transaction, and then the tree or the table of
# domains. Domain 5 is there from the start.
domain 5 at 0
# READ of /x by domain 5 (request 1): /x is absent, and / has n0 in a new store, so that it may not look: EACCES.
send 5 020000000100000000000000030000002f7800
serve 5
# The same by domain 0: ENOENT.
send 0 020000000100000000000000030000002f7800
serve 0
# In the transaction 9, which is not open, and without the NUL that ends the path (request 2): the form comes first, EINVAL.
send 0 020000000200000009000000020000002f78
serve 0
# With the NUL (request 3): ENOENT for the transaction.
send 0 020000000300000009000000030000002f7800
serve 0
# RELEASE of domain 7 by domain 5 (request 2), which may not: EACCES. By domain 0 (request 4): it has no connection, ENOENT.
send 5 090000000200000000000000020000003700
serve 5
send 0 090000000400000000000000020000003700
serve 0
# RELEASE of domain 0 is out of form for everybody, and so comes before who asks (request 3 of domain 5): EINVAL.
send 5 090000000300000000000000020000003000
serve 5
# A type that nobody serves (20, request 5), with a payload that no type allows: ENOSYS.
send 0 140000000500000000000000020000002f78
serve 0
# DIRECTORY of / in the new store (request 6): no name, so an empty payload.
send 0 010000000600000000000000020000002f00
serve 0
