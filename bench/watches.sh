#!/usr/bin/env bash
# What watches and their events cost, in instructions by callgrind: the rows of the table that tell of them.
exec "$(dirname "$0")/table.sh" watches
