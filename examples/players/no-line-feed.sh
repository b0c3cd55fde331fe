#!/bin/sh
# Ends in the middle of its last line.
read -r _
read -r _
echo "bin 0"
read -r _
printf 'bin 1'
