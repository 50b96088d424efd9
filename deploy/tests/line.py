"""A poor line between two offices, or what stands at its end instead of an office: line.py KIND PORT [OTHER].

What comes in at PORT of this machine is handed to OTHER there, and back, by a line of this KIND:

    plain    as it is
    slow     64 kbit/s, a second each way, and each tenth packet comes a second late, so that all behind it wait
    cut      each connection but every fifth breaks after a random number of bytes, the second at once

or nobody is there, but

    silent   takes connections and all that comes, and answers nothing
    drip     answers with the head of a long reply, and then a byte each second
    lying    answers each request with 200 and words that no replica says
    endless  answers with a reply that never ends

Each connection that ends adds a line to standard output: the bytes there and back.
"""

import queue
import random
import socket
import sys
import threading
import time

kind, port = sys.argv[1], int(sys.argv[2])
dice = random.Random(7)
number = 0


def brought(source, packets, count, limit):
    """Puts what comes, and when it would have come over the line, into a queue; nothing for an end, False for a break."""
    free = 0
    try:
        while data := source.recv(1448):
            count[0] += len(data)
            if count[0] > limit:
                return packets.put((0, False))
            if kind == 'slow':
                free = max(free, time.monotonic()) + len(data) / 8000 + (1 if dice.random() < 0.1 else 0)
            packets.put((free + 1, data))
        packets.put((free + 1, None))
    except OSError:
        packets.put((0, False))


def copy(source, target, count, limit):
    packets = queue.Queue()
    threading.Thread(target=brought, args=(source, packets, count, limit), daemon=True).start()
    try:
        while data := (packet := packets.get())[1]:
            if kind == 'slow':
                time.sleep(max(0, packet[0] - time.monotonic()))
            target.sendall(data)
        if data is None:
            return target.shutdown(socket.SHUT_WR)
    except OSError:
        pass
    for end in (source, target):
        try:
            end.setsockopt(socket.SOL_SOCKET, socket.SO_LINGER, b'\1\0\0\0\0\0\0\0')
            end.shutdown(socket.SHUT_RDWR)
        except OSError:
            pass


def line(caller, turn):
    if kind == 'slow':
        time.sleep(2)
    limit = 1 << 40
    if kind == 'cut' and turn % 5:
        limit = 50 if turn == 2 else dice.randrange(200, 9000)
    try:
        called = socket.create_connection(('127.0.0.1', int(sys.argv[3])))
    except OSError:
        return caller.close()
    there, back = [0], [0]
    thread = threading.Thread(target=copy, args=(called, caller, back, limit))
    thread.start()
    copy(caller, called, there, limit)
    thread.join()
    print(there[0], back[0], flush=True)
    caller.close()
    called.close()


def stranger(caller, _):
    try:
        if kind == 'silent':
            while caller.recv(4096):
                pass
            return
        caller.recv(65536)
        if kind == 'lying':
            caller.sendall(b'HTTP/1.1 200 OK\r\nContent-Length: 12\r\nConnection: close\r\n\r\nmp2 1 1\nK 5\n')
            return
        caller.sendall(b'HTTP/1.1 200 OK\r\nConnection: close\r\n\r\n')
        while True:
            caller.sendall(b'x' if kind == 'drip' else b'x' * 65536)
            if kind == 'drip':
                time.sleep(1)
    except OSError:
        pass
    finally:
        caller.close()


listener = socket.create_server(('127.0.0.1', port), backlog=64)
while True:
    connection, _ = listener.accept()
    number += 1
    threading.Thread(target=line if len(sys.argv) > 3 else stranger, args=(connection, number), daemon=True).start()
