# A READ of /a whose header comes in two pieces. The guest puts 9 bytes of it, and the store takes them in.
send 0 020000000100000000000000030000002f6100
put 0 9
intake 0 4112
# There is no whole message yet.
do 0
# The other 10 bytes come. The store takes in no more than the end of the message.
put 0 64
intake 0 4112
do 0
# The reply leaves in two pieces as well, and no byte of it is sent twice.
out 0 7
take 0 64
out 0 64
take 0 64
# The indices run on: 19 bytes went one way and 23 the other, and there is no error.
page 0
