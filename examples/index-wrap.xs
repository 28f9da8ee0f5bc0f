# The indices of a ring run freely and wrap at 2^32. Here they begin six bytes before that, and name a byte by their
# value modulo 1024: a WRITE of 100 bytes goes round both ends.
domain 0 at 4294967290
send 0 0b0000000500000000000000540000002f6100787878787878787878787878787878787878787878787878787878787878787878787878787878787878787878787878787878787878787878787878787878787878787878787878787878787878787878
# The guest puts all of it. A page line has the index from which the store takes and the one to which the guest puts, the
# same two of the reply ring, and the error word.
put 0 1024
page 0
# The store takes the message, answers, and the guest takes the reply of 19 bytes.
serve 0
page 0
