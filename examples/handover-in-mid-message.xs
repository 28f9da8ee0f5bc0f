# Seven bytes of a reply are sent and three bytes of the next request are taken: then the daemon is replaced. The guest
# gets each byte once. Without the line of the handover it gets the same bytes: mid-message.xs.
# WRITE /a, and READ /a
send 0 0b0000000200000000000000030000002f6100
send 0 020000000300000000000000030000002f6100
put 0 22
intake 0 4112
do 0
out 0 7
intake 0 4112
handover
put 0 1024
intake 0 4112
do 0
out 0 4112
take 0 4112
