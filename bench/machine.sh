#!/bin/sh
# What a run of the benchmark was made on, as a table in Markdown.
processor=$(sed -n 's/^model name[^:]*: *//p' /proc/cpuinfo | head -n 1)
virtual=$(grep -q hypervisor /proc/cpuinfo && echo ', of a virtual machine')
echo '| run | |'
echo '|---|---|'
echo "| processor | $processor |"
echo "| processors | $(nproc)$virtual |"
echo "| load at the start, of all work on them | $(cut -d ' ' -f 1 /proc/loadavg) |"
echo "| compiler | $(rustc --version) |"
echo "| date | $(date -u +%F) |"
echo "| commit | $(git describe --always --dirty) |"
echo
