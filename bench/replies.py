"""What requests for a kept document cost in memory, with the write of the replies into memory."""

import os
import subprocess
import sys

WHOLE = 1_000_000
TIMES = 40
# Each figure is the least of so many runs.
RUNS = 40
# What a request costs is the difference between two connections, by that of their requests.
FEW, MANY = 480, 960

BODY = (
    '{"instance":{"instanceId":"i%d","hostName":"h","app":"A","ipAddr":"10.0.0.1",'
    '"dataCenterInfo":{"name":"MyOwn"}}}'
)


def registration(number):
    body = BODY % number
    head = "POST /eureka/v2/apps/A HTTP/1.1\r\nHost: localhost:8761\r\nContent-Length: %d\r\n\r\n"
    return head % len(body) + body


def get(fields):
    lines = ["GET /eureka/v2/apps HTTP/1.1", "Host: localhost:8761"]
    lines += ["X-Field-%d: a value of usual length" % number for number in range(fields)]
    return "\r\n".join(lines) + "\r\n\r\n"


def run_nanoseconds(program, folder, instances, fields, requests, piece):
    """The nanoseconds of one connection, and the bytes of its replies."""
    text = "".join(registration(number) for number in range(instances)) + get(fields) * requests
    with open(os.path.join(folder, "row.request"), "w", encoding="ascii", newline="") as row:
        row.write(text)
    words = [program, "row", str(TIMES), str(piece)]
    runs = []
    for _ in range(RUNS):
        done = subprocess.run(words, check=True, capture_output=True, text=True, cwd=folder)
        taken, size = (int(word) for word in done.stdout.split())
        runs.append(taken / TIMES)
    return min(runs), size


def measured(program, folder, instances, fields, piece):
    """The nanoseconds of a request, and the bytes of its reply."""
    few, few_size = run_nanoseconds(program, folder, instances, fields, FEW, piece)
    many, many_size = run_nanoseconds(program, folder, instances, fields, MANY, piece)
    return (many - few) / (MANY - FEW), (many_size - few_size) // (MANY - FEW)


def main(program, folder):
    open(os.path.join(folder, "row.reply"), "w", encoding="ascii").close()
    for instances in (0, 1, 10):
        each, size = measured(program, folder, instances, 0, WHOLE)
        print(
            "%d instances, a reply of %d bytes: %.0f ns a request" % (instances, size, each),
            flush=True,
        )
    for fields in (8, 16, 32):
        one, _ = measured(program, folder, 1, fields, WHOLE)
        two, _ = measured(program, folder, 1, 2 * fields, WHOLE)
        print("%d fields: %.0f ns, twice as many: %.2f times" % (fields, one, two / one), flush=True)
    for fields in (0, 8, 16, 32):
        whole, _ = measured(program, folder, 1, fields, WHOLE)
        cut, _ = measured(program, folder, 1, fields, 100)
        print(
            "%d fields in one piece: %.0f ns, in pieces of 100 bytes: %.2f times"
            % (fields, whole, cut / whole),
            flush=True,
        )


main(*sys.argv[1:])
