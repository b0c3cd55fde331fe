#!/bin/sh
# Takes the bins in turn.
read -r _ bins _
count=0
while read -r word _ && [ "$word" = item ]; do
    echo "bin $((count % bins))"
    count=$((count + 1))
done
