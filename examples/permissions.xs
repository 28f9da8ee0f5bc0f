# MKDIR of /vm/7 (request 1) makes /vm too. Both get the entries of /, which are n0 in a new store.
send 0 0c0000000100000000000000060000002f766d2f3700
serve 0
# GET_PERMS of /vm/7 (request 2) gives n0: domain 0 owns it, and nobody else may read or write.
send 0 030000000200000000000000060000002f766d2f3700
serve 0
# SET_PERMS of /vm/7 to n0 r7 (request 3) is granted: domain 0 stays the owner, and domain 7 may read.
send 0 0e00000003000000000000000c0000002f766d2f37006e3000723700
serve 0
# SET_PERMS to n0 x7 (request 4) is refused with EINVAL, since x is no letter of an entry, and nothing changes.
send 0 0e00000004000000000000000c0000002f766d2f37006e3000783700
serve 0
# GET_PERMS of /vm/7 (request 5) gives n0 and r7.
send 0 030000000500000000000000060000002f766d2f3700
serve 0
# WRITE of on to /vm/7/state (request 6). A new node has the entries of the node above it.
send 0 0b00000006000000000000000e0000002f766d2f372f7374617465006f6e
serve 0
# GET_PERMS of /vm/7/state (request 7) gives n0 and r7.
send 0 0300000007000000000000000c0000002f766d2f372f737461746500
serve 0
# SET_PERMS of /vm/8, which is absent (request 8), is refused with ENOENT.
send 0 0e0000000800000000000000090000002f766d2f3800623000
serve 0
# DIRECTORY of /vm/7 (request 9) gives the one name state.
send 0 010000000900000000000000060000002f766d2f3700
serve 0
# RM of /vm (request 10) removes it and all below it.
send 0 0d0000000a00000000000000040000002f766d00
serve 0
# RM of /vm once more (request 11) is OK: the node above it is there.
send 0 0d0000000b00000000000000040000002f766d00
serve 0
# DIRECTORY of / (request 12) gives no name.
send 0 010000000c00000000000000020000002f00
serve 0
