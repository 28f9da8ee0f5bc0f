# WRITE of 1 to device/vif/0/state (request 1). The path is relative, so it stands below /local/domain/0. The nodes on
# the way are made too.
send 0 0b0000000100000000000000140000006465766963652f7669662f302f73746174650031
serve 0
# READ of the absolute path of the same node (request 2) gives 1.
send 0 020000000200000000000000230000002f6c6f63616c2f646f6d61696e2f302f6465766963652f7669662f302f737461746500
serve 0
# READ of /local/domain/0/device (request 3) gives an empty value: that node was made on the way.
send 0 020000000300000000000000170000002f6c6f63616c2f646f6d61696e2f302f64657669636500
serve 0
# READ of device//vif (request 4) answers EINVAL: two slashes are no path.
send 0 0200000004000000000000000c0000006465766963652f2f76696600
serve 0
# READ of device in transaction 7 (request 5) answers ENOENT: no transaction is open.
send 0 0200000005000000070000000700000064657669636500
serve 0
# A message of type 18 (request 6) answers ENOSYS: it is not built.
send 0 12000000060000000000000000000000
serve 0
