"""Threads over a bytearray with a lock, which `bench/threads` measures beside the program.

    bench/threads.py one|each THREADS ROUNDS

A round is a read, a write and an `append`, each with the lock held. The number of all rounds is printed.
"""
import sys
import threading


def work(data, lock, rounds):
    """All rounds of a thread."""
    for number in range(rounds):
        byte = number % 256
        with lock:
            data[0]
        with lock:
            data[0] = byte
        with lock:
            data.append(byte)


def main():
    kind, count, rounds = sys.argv[1], int(sys.argv[2]), int(sys.argv[3])
    shared = bytearray(b"a"), threading.Lock()
    owned = [shared if kind == "one" else (bytearray(b"a"), threading.Lock()) for _ in range(count)]
    threads = [threading.Thread(target=work, args=(*one, rounds)) for one in owned]
    for thread in threads:
        thread.start()
    for thread in threads:
        thread.join()
    exporters = [shared[0]] if kind == "one" else [data for data, _ in owned]
    print(3 * sum(len(data) - 1 for data in exporters))


main()
