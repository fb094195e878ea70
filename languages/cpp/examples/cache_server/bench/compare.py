#!/usr/bin/env python3
"""Measures the cache server beside redis-server and memcached: compare.py SERVER LOAD [SECONDS].

SERVER is the path of cache_server, LOAD that of load.cpp, compiled. The servers run by turns, each alone, SECONDS (1 by default) for
each line of the table, three rounds of it; of these the best counts. For each server it prints how many requests it answered in a
second, in thousands, and how many microseconds of processor it took for one; and what cache_server answered as a multiple of what
others did.
"""

import os
import shutil
import socket
import subprocess
import sys
import tempfile
import time

KEYS, SIZE, CLIENTS, CONNECTIONS, ROUNDS = 100000, 100, 3, 16, 3
NAMES = ["cache_server", "redis-server", "redis-server --io-threads", "memcached"]
WORKS = [(pipeline, sets) for pipeline in (1, 16) for sets in (1, 10)]


def servers(server, threads):
    """Returns the servers that are here: their protocol, and their command but for the port."""
    redis = ["--save", "", "--appendonly", "no", "--bind", "127.0.0.1", "--port"]
    known = {
        "cache_server": ("redis", [server, "--threads", threads, "--port"]),
        "redis-server": ("redis", ["redis-server", *redis]),
        "redis-server --io-threads": ("redis", ["redis-server", "--io-threads", threads, *redis]),
        "memcached": ("memcached", ["memcached", "-u", "root", "-l", "127.0.0.1", "-U", "0", "-m", "256", "-t", threads, "-p"]),
    }
    if threads == "1":
        del known["redis-server --io-threads"]
    return {name: how for name, how in known.items() if shutil.which(how[1][0])}


def free_port():
    with socket.socket() as one:
        one.bind(("127.0.0.1", 0))
        return str(one.getsockname()[1])


def begun(command, port, room):
    """Starts a server, and returns it when it takes connections."""
    process = subprocess.Popen(command, cwd=room, stdout=subprocess.DEVNULL, stderr=subprocess.DEVNULL)
    for _ in range(500):
        try:
            socket.create_connection(("127.0.0.1", int(port))).close()
            return process
        except ConnectionRefusedError:
            time.sleep(0.01)
    process.kill()
    raise RuntimeError(f"{command[0]} doesn't begin")


def processor_time(process):
    with open(f"/proc/{process.pid}/stat") as file:
        words = file.read().rpartition(")")[2].split()
    return (int(words[11]) + int(words[12])) / os.sysconf("SC_CLK_TCK")


def measured(load, how, seconds, room):
    """Returns for each work how many requests a second were answered, and what each took of a processor, in microseconds."""
    protocol, command = how
    port = free_port()
    process = begun([*command, port], port, room)
    results = {}
    try:
        for pipeline, sets in [(64, 10), *WORKS]:
            words = [load, protocol, port, str(seconds if results else 0), CLIENTS, CONNECTIONS, pipeline, KEYS, SIZE, sets]
            before, begins = processor_time(process), time.monotonic()
            rate, found = subprocess.run([str(word) for word in words], check=True, capture_output=True, text=True).stdout.split()
            took, used = time.monotonic() - begins, processor_time(process) - before
            assert not results or sets == 10 or float(found) > 99, f"{command}: {found} % found"
            results[pipeline, sets] = float(rate), used / took / float(rate) * 1e6
    finally:
        process.terminate()
        process.wait()
    return results


def row(rounds, work):
    """Returns what the table tells of a work: each server, and cache_server as a multiple of the others."""
    best = {name: max(one[name][work][0] for one in rounds) for name in rounds[0]}
    least = {name: min(one[name][work][1] for one in rounds) for name in rounds[0]}
    told = [f"{best[name] / 1000:.0f} ({least[name]:.2f})" if name in best else "" for name in NAMES]
    redis = max((rate for name, rate in best.items() if name.startswith("redis")), default=None)
    others = [redis, best.get("memcached")]
    return told + [f"{best[NAMES[0]] / other:.2f}" if other else "" for other in others]


def main():
    server, load = (os.path.abspath(path) for path in sys.argv[1:3])
    seconds = float(sys.argv[3]) if len(sys.argv) > 3 else 1
    titles = ["Threads", "Pipeline", "Sets", *(f"`{name}`" for name in NAMES), "to redis-server", "to memcached"]
    print("| " + " | ".join(titles) + " |\n" + "|--:" * len(titles) + "|")
    with tempfile.TemporaryDirectory() as room:
        for threads in ("1", "4"):
            all_servers = servers(server, threads)
            rounds = [{name: measured(load, how, seconds, room) for name, how in all_servers.items()} for _ in range(ROUNDS)]
            for work in WORKS:
                words = [threads, str(work[0]), f"{work[1] * 10} %", *row(rounds, work)]
                print("| " + " | ".join(words) + " |", flush=True)


if __name__ == "__main__":
    main()
