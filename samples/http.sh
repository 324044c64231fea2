#!/bin/sh
# Runs the requests of the README against a server that listens on a port of this host, 8761 unless
# another is given as a word: `./discovery serve --port 8761`. It prints each request and its reply.
set -eu
base=http://127.0.0.1:${1:-8761}/eureka/v2

# ask METHOD PATH [MORE..]: one request, and the status of the reply with its body.
ask() {
    method=$1
    path=$2
    shift 2
    echo "$method $path"
    curl -sS -X "$method" -w '\n%{http_code}\n' "$@" "$base$path"
}

ask POST /apps/ORDERS -H 'Content-Type: application/json' --data-binary @- <<'BODY'
{"instance":{"instanceId":"h1:orders:8080","hostName":"h1","app":"ORDERS","ipAddr":"10.0.0.1","status":"UP","port":{"$":8080,"@enabled":"true"},"vipAddress":"orders","dataCenterInfo":{"name":"MyOwn"}}}
BODY
ask GET /apps/ORDERS/h1:orders:8080
ask PUT /apps/ORDERS/h1:orders:8080
ask GET /apps/delta
ask PUT '/apps/ORDERS/h1:orders:8080/status?value=OUT_OF_SERVICE'
ask DELETE '/apps/ORDERS/h1:orders:8080/status?value=UP'
ask DELETE /apps/ORDERS/h1:orders:8080
ask GET /apps
