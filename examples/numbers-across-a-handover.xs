# DIRECTORY_PART shows a number with each part, so that a reader knows when a list has changed: here the same numbers come
# from the daemon before and the one after a handover, in a transaction and outside.
# MKDIR /d, and two children: the number of /d is 3
send 0 0c0000000000000000000000030000002f6400
serve 0
send 0 0c0000000000000000000000050000002f642f7800
serve 0
send 0 0c0000000000000000000000050000002f642f7900
serve 0
send 0 160000000000000000000000050000002f64003000
serve 0
# a transaction: its number is counted from 0
send 0 0600000000000000000000000100000000
serve 0
send 0 160000000000000001000000050000002f64003000
serve 0
send 0 0b0000000000000001000000060000002f642f7a0031
serve 0
handover
# 1 and the names x, y, z
send 0 160000000000000001000000050000002f64003000
serve 0
# END, and the number outside is 4
send 0 070000000000000001000000020000005400
serve 0
send 0 160000000000000000000000050000002f64003000
serve 0
