#!/bin/bash
# What a running server makes of a host's time that is put back and far forward, while its monotonic
# clock goes on: Debian's `faketime` (apt-get install faketime) loads a library that tells the program
# another time. Needs the proved program, as `discovery` builds it, or another one in PROGRAM, and curl.
set -u
cd "$(dirname "$0")/.."
PROGRAM=${PROGRAM:-crates/discovery/out/discovery}
PORT=${PORT:-18999}
LIBRARY=$(find /usr/lib -name libfaketimeMT.so.1 | head -n 1)
work=$(mktemp -d)
echo "+0" >"$work/time"

LD_PRELOAD=$LIBRARY FAKETIME_TIMESTAMP_FILE=$work/time FAKETIME_NO_CACHE=1 \
    FAKETIME_DONT_FAKE_MONOTONIC=1 "$PROGRAM" serve --port "$PORT" >"$work/said" 2>&1 &
server=$!
trap 'kill $server; rm -r "$work"' EXIT

base=http://127.0.0.1:$PORT/eureka/v2/apps
instance='{"instance":{"instanceId":"1","hostName":"h","app":"A","ipAddr":"10.0.0.1","status":"UP","port":{"$":80,"@enabled":"true"},"dataCenterInfo":{"name":"MyOwn"},"leaseInfo":{"durationInSecs":90}}}'

# How many instances all apps name now.
count() {
    curl -s "$base" | grep -o '"instanceId"' | wc -l
}

# Sends a heartbeat each ten seconds, for so many seconds.
beat() {
    for _ in $(seq $(($1 / 10))); do
        sleep 10
        curl -s -o "$work/reply" -X PUT "$base/A/1"
    done
}

for _ in $(seq 50); do
    grep -q listening "$work/said" && break
    sleep 0.1
done
curl -s -o "$work/reply" -X POST -H 'Content-Type: application/json' -d "$instance" "$base/A"
beat 40
echo "before: $(count) of 1 in all apps"
echo "-3600" >"$work/time"
beat 70
echo "an hour back: $(count) of 1"
curl -s -o "$work/reply" -X POST -H 'Content-Type: application/json' -d "${instance/\"1\"/\"2\"}" "$base/A"
beat 40
echo "an hour back, one more instance: $(count) of 2"
echo "+36500d" >"$work/time"
beat 70
echo "a century ahead: $(count) of 2, both in time"
echo "+0" >"$work/time"
beat 150
echo "as at the start, where one sent no heartbeat: $(count) of 1"
