#!/bin/sh
# Answers once, and then no bin.
read -r _
read -r _
echo "bin 0"
read -r _
echo "the one on the left"
cat > /dev/null
