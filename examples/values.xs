# WRITE of the bytes 0, 1 and 0 to /a (request 2). The reply has the payload OK and a NUL.
send 0 0b0000000200000000000000060000002f6100000100
serve 0
# READ of /a (request 3) gives these three bytes: a value may have NUL bytes.
send 0 020000000300000000000000030000002f6100
serve 0
# WRITE of nothing to /a (request 3 again: the number is the guest's own).
send 0 0b0000000300000000000000030000002f6100
serve 0
# READ of /a (request 4) gives a header alone: the value is empty.
send 0 020000000400000000000000030000002f6100
serve 0
