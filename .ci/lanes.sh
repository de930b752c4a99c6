# Sourced before `rt ci`: each check gets one processor, and as many checks run as there are processors. A check that is
# shared among processors takes a quarter more of their time. With less than 4 GB of memory a processor `rt ci` decides.
available=$(awk '/^MemAvailable:/ { print int($2 / 1000000) }' /proc/meminfo)
if [ "${available:-0}" -ge $((4 * $(nproc))) ]; then
    export RT_JOBS="${RT_JOBS-$(nproc)}"
fi
