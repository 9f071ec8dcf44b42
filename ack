#!/bin/sh
# ack: answers the exchange on standard input with its 997, or with `refused N`.
#
#     ./ack < samples/exchange.txt
exec "$(dirname "$0")/scripts/program" ack
