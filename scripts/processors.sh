# How many checks at a time keep every processor busy while crates are proved, as `jobs`: no more than there is memory for, of which a check takes up to
# two gigabytes. Read by the build of ./damindex and by ./library.

jobs=$(nproc 2>/dev/null || echo 1)
room=$(awk '$1 == "MemAvailable:" { print int($2 / 2000000) }' /proc/meminfo 2>/dev/null)
[ "$jobs" -le "${room:-$jobs}" ] || jobs=$room
[ "$jobs" -ge 1 ] || jobs=1
