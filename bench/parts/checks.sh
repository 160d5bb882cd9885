# Prints the number of checks that `rt ci` may run at a time: one for every 6 GB of memory, but at most one for each processor. Most checks need
# less than 4 GB. Without RT_JOBS, `rt` reserves twice the memory that most checks need, and leaves processors idle. It repeats a check that was
# killed.
kilobytes=$(sed -n 's/^MemTotal: *\([0-9]*\) kB/\1/p' /proc/meminfo)
checks=$((kilobytes / 6000000))
[ "$checks" -le "$(nproc)" ] || checks=$(nproc)
echo $((checks > 0 ? checks : 1))
