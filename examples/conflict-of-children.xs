# Two transactions make a child each of /d. The one that ends first is committed. The other looked at /d, whose
# list of children changed: EAGAIN, though the two wrote different paths.
# MKDIR /d
send 0 0c0000000000000000000000030000002f6400
serve 0
# START: transaction 1
send 0 0600000000000000000000000100000000
serve 0
# START: transaction 2
send 0 0600000000000000000000000100000000
serve 0
# MKDIR /d/x in transaction 1
send 0 0c0000000000000001000000050000002f642f7800
serve 0
# MKDIR /d/y in transaction 2
send 0 0c0000000000000002000000050000002f642f7900
serve 0
# END of transaction 2: OK
send 0 070000000000000002000000020000005400
serve 0
# END of transaction 1: EAGAIN
send 0 070000000000000001000000020000005400
serve 0
# READ /d/x: ENOENT
send 0 020000000000000000000000050000002f642f7800
serve 0
# READ /d/y: there, and empty
send 0 020000000000000000000000050000002f642f7900
serve 0
