#!/bin/sh
# IPVS of a balancer before two servers of satip with one common address, 192.168.1.10; it counts connections.
# docs/SCALING.md says what the servers need. Needs root and the Debian package ipvsadm; it isn't tried.
#
# -g passes packets on to a server's hardware address. -p 300 brings a client that returns within 300 seconds to the
# same server; let that be more than `timeout` of the configuration. -x 60 gives a server no new client from 60
# connections on, so that it answers a check with the other 4, and -y 56 gives it some again below 56. A client that
# -p keeps at a full server is refused there, by examples/limits.nft.
set -eu
ipvsadm -A -t 192.168.1.10:554 -s lc -p 300
ipvsadm -a -t 192.168.1.10:554 -r 192.168.1.11:554 -g -x 60 -y 56
ipvsadm -a -t 192.168.1.10:554 -r 192.168.1.12:554 -g -x 60 -y 56
