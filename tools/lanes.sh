#!/usr/bin/env bash
# How many checks the gate runs side by side: one a processor, as far as 4 GB of free memory for each reach (the largest was seen to
# take 3.0).
# Nothing on a small machine, where what rt chooses by itself is as good.
set -u
free=$(awk '/^MemAvailable:/ { print int($2 / 4000000) }' /proc/meminfo)
lanes=$(nproc)
if [ "$lanes" -gt "$free" ]; then lanes=$free; fi
if [ "$lanes" -ge 3 ]; then echo "$lanes"; fi
