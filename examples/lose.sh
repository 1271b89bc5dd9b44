#!/bin/sh
# A network that loses packets: reads the answers of `replay`, leaves out the packets whose numbers are given, and prints the
# others as lines for `repair`, then the line `state`.
awk -v lost=" $* " '
    $1 == "packet" && index(lost, " " $2 " ") == 0 { print "packet", $3 }
    END { print "state" }'
