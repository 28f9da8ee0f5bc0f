# Transaction 1 reads /a, and outside of it the same value is written again. No value differs, but the path was
# changed by somebody else: EAGAIN. The number is free again afterwards.
# WRITE /a = x
send 0 0b0000000000000000000000040000002f610078
serve 0
# START: transaction 1
send 0 0600000000000000000000000100000000
serve 0
# READ /a in transaction 1
send 0 020000000000000001000000030000002f6100
serve 0
# WRITE /a = x outside
send 0 0b0000000000000000000000040000002f610078
serve 0
# END of transaction 1: EAGAIN
send 0 070000000000000001000000020000005400
serve 0
# START: transaction 1 again
send 0 0600000000000000000000000100000000
serve 0
# END, which drops it
send 0 070000000000000001000000020000004600
serve 0
