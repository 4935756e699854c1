#!/usr/bin/env bash
# Measures the office over HTTP on one connection, with 1 and with 16 requests sent before their responses are read:
# nanoseconds a request, by the clock and of processor time (user and system), against a twin in plain Rust that has the
# HTTP part alone, with fixed replies. The request `none` has no route, so that the office too has the HTTP part alone;
# `period` and `sale` have the desk's work in them. Each time is the least of five runs, the office and the twin in turn.
#
# A connection has at most 65,536 messages, and each of the five rounds of a run sends COUNT.
#
# usage: bench/http/run.sh [PROGRAM] [COUNT]
set -eu
here=$(cd "$(dirname "$0")" && pwd)
top=$(cd "$here/../.." && pwd)
program=$(realpath -- "${1:-$top/crates/bsp_office/out/bsp_office}")
count=${2:-12800}
work=$(mktemp -d)
trap 'kill $(jobs -p) 2>/dev/null; rm -rf "$work"' EXIT
cd "$work"
rustc -O -o twin "$here/twin.rs"
rustc -O -o client "$here/client.rs"

# The office and the twin on one processor, and the client on another. Without this the scheduler puts the client beside the
# one in some runs, and beside the other in others.
server=() client=()
if [ "$(nproc)" -gt 1 ]; then
  server=(taskset -c 1) client=(taskset -c 0)
fi

free_port() {
  python3 -c 'import socket; s = socket.socket(); s.bind(("127.0.0.1", 0)); print(s.getsockname()[1])'
}

# answers PORT: waits until something listens there
answers() {
  curl -s --retry 50 --retry-connrefused --retry-delay 1 -o /dev/null "http://127.0.0.1:$1/x"
}

# post PORT TOKEN PATH BODY
post() {
  curl -sf -o /dev/null -H "Bsp-Token: $2" --data-binary "$4" "http://127.0.0.1:$1$3"
}

office=$(free_port)
"${server[@]}" "$program" serve --port "$office" --token officetoken00001 2>/dev/null &
office_pid=$!
twin=$(free_port)
"${server[@]}" ./twin "$twin" &
twin_pid=$!
answers "$office"
answers "$twin"
post "$office" officetoken00001 /office/plan "@$top/samples/plan.toml"
post "$office" officetoken00001 /office/day '{"day":"2024-01-05"}'
post "$office" officetoken00001 /office/agents '{"agent":"12345675","token":"agenttoken000001"}'
post "$office" officetoken00001 /office/stock/allot '{"agent":"12345675","first":"1300000000","last":"1300000099"}'
post "$office" agenttoken000001 /agents/12345675/ret "@$top/samples/sale.ret"

fields=$'Host: 127.0.0.1\r\nUser-Agent: curl/7.88.1\r\nAccept: */*\r\nBsp-Token: agenttoken000001\r\n'
printf 'GET /x HTTP/1.1\r\n%s\r\n' "$fields" >none
printf 'GET /agents/12345675/periods/24011 HTTP/1.1\r\n%s\r\n' "$fields" >period
{
  printf 'POST /agents/12345675/ret HTTP/1.1\r\n%sContent-Length: 685\r\n\r\n' "$fields"
  cat "$top/samples/sale.ret"
} >sale

# measure PORT PID DEPTH REQUEST: nanoseconds by the clock, and of the processor time of that process
measure() {
  local before wall after
  before=$(cut -d ' ' -f 1 "/proc/$2/schedstat")
  wall=$("${client[@]}" ./client "$1" "$count" "$3" "$4")
  after=$(cut -d ' ' -f 1 "/proc/$2/schedstat")
  echo "$wall $(((after - before) / (5 * (count / $3 * $3) + 1)))"
}

printf '%-8s %5s %18s %18s %6s %18s %18s %6s\n' request depth 'office, clock' 'twin, clock' ratio 'office, processor' 'twin, processor' ratio
for request in none period sale; do
  for depth in 1 16; do
    for _ in 1 2 3 4 5; do
      echo "$(measure "$office" "$office_pid" "$depth" "$request") $(measure "$twin" "$twin_pid" "$depth" "$request")"
    done | awk -v request="$request" -v depth="$depth" '
      { for (i = 1; i <= 4; i++) if (NR == 1 || $i < least[i]) least[i] = $i }
      END { printf "%-8s %5s %15d ns %15d ns %6.2f %15d ns %15d ns %6.2f\n", request, depth,
        least[1], least[3], least[1] / least[3], least[2], least[4], least[2] / least[4] }'
  done
done
