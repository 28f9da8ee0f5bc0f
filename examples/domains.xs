# Domains 5 and 6 are there from the start. The indices of their pages begin at 0, and just before they wrap.
domain 5 at 0
domain 6 at 4294967290
# Domain 0 writes hello to /t (request 1), and SET_PERMS gives /t to domain 6, which alone may read it (request 2).
send 0 0b0000000100000000000000080000002f740068656c6c6f
serve 0
send 0 0e0000000200000000000000060000002f74006e3600
serve 0
# Domain 5 reads /t (request 1 of its own) and is refused with EACCES.
send 5 020000000100000000000000030000002f7400
serve 5
# SET_TARGET (request 3): domain 5 stands for domain 6 besides itself. Now its READ (request 2) gives hello.
send 0 1300000003000000000000000400000035003600
serve 0
send 5 020000000200000000000000030000002f7400
serve 5
# A guest may not introduce: EACCES. It may ask whether domain 6 has a connection (T), and for its path.
send 5 08000000030000000000000006000000370031003100
serve 5
send 5 110000000400000000000000020000003600
serve 5
send 5 0a0000000500000000000000020000003600
serve 5
# Domain 5 asks for /t once more, and only 7 bytes of the reply leave.
send 5 020000000600000000000000030000002f7400
put 5 1024
intake 5 4112
do 5
out 5 7
# Domain 6 is in the middle of a message: 10 of its 19 bytes are taken in, and 4 more are in its ring.
send 6 020000000100000000000000030000002f7400
put 6 10
intake 6 4112
put 6 4
do 6
page 6
# RELEASE of domain 6 (request 4). Its connection is gone with what was taken in, and its page stays as it was.
send 0 090000000400000000000000020000003600
serve 0
intake 6 4112
do 6
take 6 1024
page 6
# Domain 5 has lost nothing: the rest of its reply comes, and it stands for domain 6 as before, whose number stays its target.
out 5 4112
take 5 1024
send 5 020000000700000000000000030000002f7400
serve 5
# INTRODUCE of domain 6 (request 5) makes a new connection with a fresh page: nothing of the old life is there, neither
# the bytes in its ring nor those that it had still to put. The same message, whole this time, is answered.
send 0 08000000050000000000000006000000360031003900
serve 0
page 6
put 6 1024
send 6 020000000200000000000000030000002f7400
serve 6
page 6
# A second INTRODUCE (request 6) makes no second connection. RELEASE of domain 0 is EINVAL (request 7), and of domain 9,
# which has none, ENOENT (request 8). Domain 9 never had a page.
send 0 0800000006000000000000000700000036003100313000
serve 0
send 0 090000000700000000000000020000003000
serve 0
send 0 090000000800000000000000020000003900
serve 0
put 9 1
