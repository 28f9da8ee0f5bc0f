# A guest overwrites its indices. Sixteen bytes that it never put are taken as a message of type 0; then an index says that
# there are more bytes than a ring holds, and the connection is lost.
poke 0 req_prod 16
serve 0
poke 0 req_prod 2016
intake 0 1
page 0
