#!/bin/sh
# A peer of the program, run by socat with the connection as standard input and output: it sends what the FIFO in brings and writes what
# comes to the FIFO out. A process for each, so that sending does not wait until somebody reads, as it does in socat itself.
cat in &
echo $! > sender
exec cat > out
