#!/usr/bin/env python3
"""What a server answers a second, over real sockets, by the program of these sources.

  bench/serve.py [PROGRAM]     PROGRAM is the one to drive; without it that of these sources

It starts `serve` on a document of 25 points with eight workers. Four clients keep 64 requests outstanding
each, for five seconds: levels, and one edit in 16, a point that is added and then removed. The same then while the other four workers have a client that
stalls in the middle of a line, one that sends 1 MiB without a line end, one that resets, and one that says nothing.
"""
import collections
import multiprocessing
import os
import random
import socket
import struct
import subprocess
import sys
import time

PORT = 47110
WORKERS = 8
CLIENTS = 4
OUTSTANDING = 64
SECONDS = 5.0
SIDE = 5


def document():
    """A grid of points, read as one surface."""
    points = "\n".join(
        f"{n * 10}.000 {e * 10}.000 {(n * 7 + e * 3) % 11}.000" for n in range(SIDE) for e in range(SIDE)
    )
    return (
        '<LandXML><Surfaces><Surface name="site"><SourceData><DataPoints><PntList3D>'
        + points
        + "</PntList3D></DataPoints></SourceData></Surface></Surfaces></LandXML>"
    )


def connect(port, seconds=60.0):
    """A connection, once the server listens."""
    end = time.monotonic() + seconds
    while True:
        try:
            wire = socket.create_connection(("127.0.0.1", port), timeout=30)
            wire.setsockopt(socket.IPPROTO_TCP, socket.TCP_NODELAY, 1)
            return wire
        except ConnectionRefusedError:
            if time.monotonic() > end:
                raise
            time.sleep(0.02)


def request(rng, number, mine):
    """The next request of a client: a level, or in one of 16 its own point, added or removed in turn."""
    if number % 32 == 15:
        return f"do add {mine} {rng.randrange(10)}\n".encode()
    if number % 32 == 31:
        return f"do remove {mine}\n".encode()
    n, e = rng.uniform(0, (SIDE - 1) * 10), rng.uniform(0, (SIDE - 1) * 10)
    return f"level {n:.3f} {e:.3f}\n".encode()


def drive(port, seed, results):
    """Keeps requests outstanding for some seconds, and tells each reply's time."""
    rng = random.Random(seed)
    mine = f"{3 + seed * 10}.5 {4 + seed * 10}.25"
    wire = connect(port)
    sent = collections.deque()
    times = []
    number = 0
    rest = b""
    start = time.monotonic()
    while time.monotonic() - start < SECONDS:
        batch = []
        while len(sent) < OUTSTANDING:
            batch.append(request(rng, number, mine))
            sent.append(time.monotonic())
            number += 1
        if batch:
            wire.sendall(b"".join(batch))
        got = wire.recv(65536)
        if not got:
            raise SystemExit("the server closed a session")
        now = time.monotonic()
        lines = (rest + got).split(b"\n")
        rest = lines.pop()
        for line in lines:
            if not line.startswith((b"level ", b"outside ", b"done ", b"refused ")):
                raise SystemExit(f"an unexpected reply: {line!r}")
            times.append(now - sent.popleft())
    wire.sendall(b"quit\n")
    while wire.recv(65536):
        pass
    results.put((len(times) / (time.monotonic() - start), times))


def stall(wire):
    wire.sendall(b"level 1.0")


def flood(wire):
    """1 MiB without a line end: the session ends at the longest line."""
    try:
        wire.sendall(b"a" * (1 << 20))
    except (BrokenPipeError, ConnectionResetError):
        pass


def reset(wire):
    wire.sendall(b"stat\n")
    wire.setsockopt(socket.SOL_SOCKET, socket.SO_LINGER, struct.pack("ii", 1, 0))
    wire.close()


def say_nothing(_wire):
    pass


def measure(name):
    """Four clients at once; prints replies a second, the median and the 99th percentile."""
    results = multiprocessing.Queue()
    clients = [multiprocessing.Process(target=drive, args=(PORT + k, k, results)) for k in range(CLIENTS)]
    for client in clients:
        client.start()
    found = [results.get(timeout=SECONDS * 12) for _ in clients]
    for client in clients:
        client.join()
    times = sorted(t for _, part in found for t in part)
    rate = sum(part for part, _ in found)
    middle, late = times[len(times) // 2], times[len(times) * 99 // 100]
    print(f"{name} | {rate:,.0f} | {middle * 1000:.2f} ms | {late * 1000:.2f} ms", flush=True)


def program_of_these_sources():
    top = os.path.dirname(os.path.dirname(os.path.abspath(__file__)))
    script = f'top="{top}"; . "$top/tools/program.sh"; fresh_program'
    found = subprocess.run(["sh", "-c", script], capture_output=True, text=True)
    if found.returncode != 0:
        raise SystemExit("no program here is of these sources: run tools/prove first")
    return found.stdout.strip()


def main():
    program = sys.argv[1] if len(sys.argv) > 1 else program_of_these_sources()
    sessions = 2
    server = subprocess.Popen(
        [program, "serve", str(PORT), str(WORKERS), str(sessions), "--origin", "0", "0"],
        stdin=subprocess.PIPE,
        stdout=subprocess.PIPE,
    )
    server.stdin.write(document().encode())
    server.stdin.close()
    print("clients | replies a second | median | 99th percentile")
    try:
        measure("alone")
        wires = [connect(PORT + CLIENTS + k) for k in range(WORKERS - CLIENTS)]
        for wire, way in zip(wires, (stall, flood, reset, say_nothing)):
            way(wire)
        measure("beside four that stall, flood, reset or say nothing")
        for wire in wires:
            wire.close()
        for k in range(CLIENTS, WORKERS):
            with connect(PORT + k) as wire:
                wire.sendall(b"quit\n")
                while wire.recv(65536):
                    pass
        print(server.stdout.read().decode().strip(), f"| status {server.wait(timeout=60)}")
    finally:
        server.kill()


if __name__ == "__main__":
    main()
