"""A server that counts bytes and parses nothing: what the calls alone cost by which single bytes are read.

Usage: python3 bench/desk/counter.py PORT SIZE

Answers every SIZE bytes of a connection, in whatever pieces they come. Connections come one after another.
"""
import socket
import sys

REPLY = b"HTTP/1.1 200 OK\r\nContent-Length: 2\r\n\r\n{}"


def serve(link, size, room):
    while True:
        left = size
        while left:
            count = link.recv_into(room, left)
            if not count:
                return
            left -= count
        link.sendall(REPLY)


def main():
    port, size = map(int, sys.argv[1:])
    room = bytearray(size)
    with socket.create_server(("127.0.0.1", port)) as listener:
        while True:
            link, _ = listener.accept()
            with link:
                serve(link, size, room)


main()
