# The daemon is replaced while transactions are open: behind a read, behind what another wrote, and behind a write. The one
# whose path was changed gets EAGAIN, the other is committed, as in transactions.xs without handovers.
# WRITE /a = x
send 0 0b0000000000000000000000040000002f610078
serve 0
# START: transaction 1
send 0 0600000000000000000000000100000000
serve 0
# READ /a in transaction 1
send 0 020000000000000001000000030000002f6100
serve 0
handover
# WRITE /a = x outside
send 0 0b0000000000000000000000040000002f610078
serve 0
handover
# END of transaction 1: EAGAIN
send 0 070000000000000001000000020000005400
serve 0
# START, WRITE /a = y in it
send 0 0600000000000000000000000100000000
serve 0
send 0 0b0000000000000001000000040000002f610079
serve 0
handover
# END: OK, and READ /a gives y
send 0 070000000000000001000000020000005400
serve 0
send 0 020000000000000000000000030000002f6100
serve 0
