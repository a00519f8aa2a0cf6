#!/usr/bin/env bash
# Prints a chain of N inverters, whose simulation runs N + N * N tasks (while N is at most --until). With a second word,
# `restless`, the first inverter reads itself, so that each of them turns at each time, and each is an output: a log of N
# lines for each unit of --until, from N units on.
set -eu
n=${1:?how many inverters}
kind=${2:-}
if [ "$kind" = restless ]; then printf 'g1 = NOT(g1)\n'; else printf 'INPUT(a)\ng1 = NOT(a)\n'; fi
for ((i = 2; i <= n; i++)); do printf 'g%d = NOT(g%d)\n' "$i" "$((i - 1))"; done
if [ "$kind" = restless ]; then
  for ((i = 1; i <= n; i++)); do printf 'OUTPUT(g%d)\n' "$i"; done
else
  printf 'OUTPUT(g%d)\n' "$n"
fi
