# handover-in-mid-message.xs without its handover.
# WRITE /a, and READ /a
send 0 0b0000000200000000000000030000002f6100
send 0 020000000300000000000000030000002f6100
put 0 22
intake 0 4112
do 0
out 0 7
intake 0 4112
put 0 1024
intake 0 4112
do 0
out 0 4112
take 0 4112
