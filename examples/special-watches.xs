# Domain 0 watches for domains that come and go, and gets an event behind the reply to INTRODUCE and to RELEASE. A guest that
# watches for the same gets its first event and no other. The second INTRODUCE makes no connection, and tells nobody.
domain 1 at 0
# WATCH of @introduceDomain and of @releaseDomain
send 0 0400000000000000000000001400000040696e74726f64756365446f6d61696e00696e00
serve 0
send 0 040000000000000000000000130000004072656c65617365446f6d61696e006f757400
serve 0
# domain 1 does so too
send 1 0400000000000000000000001400000040696e74726f64756365446f6d61696e00696e00
serve 1
# INTRODUCE of domain 7, twice
send 0 08000000000000000000000006000000370031003300
serve 0
send 0 08000000000000000000000006000000370031003400
serve 0
# RELEASE of it
send 0 090000000000000000000000020000003700
serve 0
# RESET_WATCHES, and one more INTRODUCE: no event
send 0 1500000000000000000000000100000000
serve 0
send 0 08000000000000000000000006000000370031003300
serve 0
# nothing more has come to domain 1
take 1 4096
