"""Looks a second on threads, by the program `disco_tests`."""

import subprocess
import sys


def seconds(program, apps, threads, looks, busy):
    """How long the looks took, the best of five runs, and how many publishes there were beside."""
    runs = []
    for _ in range(5):
        words = ["looks", str(apps), str(threads), str(looks), str(busy)]
        out = subprocess.run([program, *words], check=True, capture_output=True, text=True).stdout
        taken, publishes = out.split()
        runs.append((int(taken) / 1e9, int(publishes)))
    return min(runs)


def apart(program, apps, processes, looks):
    """Looks a second of processes that share nothing, each on one thread: what the machine has."""
    rates = []
    for _ in range(5):
        words = [program, "looks", str(apps), "1", str(looks), "0"]
        running = [subprocess.Popen(words, stdout=subprocess.PIPE) for _ in range(processes)]
        taken = [int(one.communicate()[0].split()[0]) / 1e9 for one in running]
        rates.append(sum(looks / seconds for seconds in taken))
    return max(rates)


def main():
    program = sys.argv[1]
    looks = int(sys.argv[2]) if len(sys.argv) > 2 else 2_000_000
    for apps in (1, 4096):
        one = None
        for busy in (0, 1):
            for threads in (1, 2, 4):
                taken, publishes = seconds(program, apps, threads, looks, busy)
                rate = threads * looks / taken
                one = one or rate
                beside = f", beside {publishes / taken:,.0f} publishes a second" if busy else ""
                print(f"{apps} documents, {threads} threads: {rate:,.0f} looks a second, {rate / one:.2f} of one alone{beside}")
        alone, four = apart(program, apps, 1, looks), apart(program, apps, 4, looks)
        print(f"{apps} documents, 4 processes that share nothing: {four / alone:.2f} of one")


main()
