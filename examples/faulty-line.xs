# A script is read whole before anything is played. Its second event has no bytes in hexadecimal, and its third has a verb
# that there is not; the first of these is named, by its line, and nothing is written. Status 3.
serve 0
send 0 0200x0
serves 0
