# READ of /a in a new store. The node is absent, so the reply is an ERROR with the name ENOENT.
send 0 020000000100000000000000030000002f6100
serve 0
