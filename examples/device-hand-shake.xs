# Two drivers find each other while the daemon is replaced. Domain 0 makes a folder for the device of domain 1, lets it
# write there, and watches the device's state. Domain 1 writes its side in one transaction: until the commit nobody is told,
# and then domain 0 gets the one event that its watch is on. A watch below a guest's home names its path relatively.
domain 1 at 0
# MKDIR of the folder
send 0 0c00000000000000000000001d0000002f6c6f63616c2f646f6d61696e2f312f6465766963652f7669662f3000
serve 0
# SET_PERMS: it is domain 1's, and domain 0 may read
send 0 0e0000000000000000000000230000002f6c6f63616c2f646f6d61696e2f312f6465766963652f7669662f30006e3100723000
serve 0
# WATCH of the state, with the token fe: OK, and the first event
send 0 040000000000000000000000260000002f6c6f63616c2f646f6d61696e2f312f6465766963652f7669662f302f737461746500666500
serve 0
# domain 1 watches the same by its relative path, with the token be
send 1 040000000000000000000000160000006465766963652f7669662f302f737461746500626500
serve 1
# domain 1: START
send 1 0600000000000000000000000100000000
serve 1
# domain 1: WRITE of ring-ref in transaction 1
send 1 0b0000000000000001000000170000006465766963652f7669662f302f72696e672d7265660038
serve 1
# domain 1: WRITE of event-channel in transaction 1
send 1 0b00000000000000010000001c0000006465766963652f7669662f302f6576656e742d6368616e6e656c0039
serve 1
# domain 1: WRITE of state in transaction 1
send 1 0b0000000000000001000000140000006465766963652f7669662f302f73746174650033
serve 1
# nothing has come to domain 0 yet: READ of the state is ENOENT
send 0 020000000000000000000000230000002f6c6f63616c2f646f6d61696e2f312f6465766963652f7669662f302f737461746500
serve 0
# the daemon is replaced while the transaction is open
handover
# domain 1: END with a commit, its reply and its event
send 1 070000000000000001000000020000005400
serve 1
# and one event to domain 0, behind which a READ gives 3
send 0 020000000000000000000000230000002f6c6f63616c2f646f6d61696e2f312f6465766963652f7669662f302f737461746500
serve 0
# UNWATCH: OK, and a second one ENOENT
send 0 050000000000000000000000260000002f6c6f63616c2f646f6d61696e2f312f6465766963652f7669662f302f737461746500666500
serve 0
send 0 050000000000000000000000260000002f6c6f63616c2f646f6d61696e2f312f6465766963652f7669662f302f737461746500666500
serve 0
# domain 1: RM of its device: an event at each path that went, but for its watch the one at the state
send 1 0d00000000000000000000000d0000006465766963652f7669662f3000
serve 1
