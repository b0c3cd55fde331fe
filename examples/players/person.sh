#!/bin/sh
# Shows the bins, and asks the person at the terminal where each item goes.
read -r word bins capacity target && [ "$word" = session ] || exit
bin=0
while [ "$bin" -lt "$bins" ]; do
    eval "load$bin=0"
    bin=$((bin + 1))
done
echo "$bins bins. All items together fit into $bins bins of $capacity. You lose at a load of $target." > /dev/tty
while read -r word item && [ "$word" = item ]; do
    bin=0
    while [ "$bin" -lt "$bins" ]; do
        eval "load=\$load$bin"
        printf 'bin %d %4d  %s\n' "$bin" "$load" "$(printf "%${load}s" '' | tr ' ' '#')"
        bin=$((bin + 1))
    done > /dev/tty
    printf 'Which bin for an item of size %d? ' "$item" > /dev/tty
    read -r bin < /dev/tty || exit
    echo "bin $bin"
    case $bin in [0-9]) eval "load$bin=\$((load$bin + item))" ;; esac
done
