#!/usr/bin/env bash
# What a handover costs, in instructions by callgrind: the rows of the table that tell of them.
exec "$(dirname "$0")/table.sh" handovers
