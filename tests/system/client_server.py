#!/usr/bin/env python3
"""client_server.py ANSWER..: a server of the Unix socket api.sock in the working folder, to try settingsctl against.

It answers one connection for each word, and prints what was asked: ok, short (a byte too few), long (a byte too much), 404, 204,
most (16,777,216 bytes), more (one byte more), none (no byte), head (a head that promises 5 bytes, and two), slow (a byte each second),
silent (nothing is read or answered, the connection held open)."""
import os
import socket
import sys
import time

REPLY = (b'HTTP/1.1 200 OK\r\nContent-Type: application/json\r\nContent-Length: 67\r\nConnection: close\r\n\r\n'
         b'{"motd":"Welcome","ntp":{"time-servers":["a.example","b.example"]}}')
HEAD = b'HTTP/1.1 200 OK\r\n\r\n'
MOST = 16777216
ANSWERS = {
    'ok': REPLY,
    'short': REPLY[:-1],
    'long': REPLY + b'x',
    '404': b'HTTP/1.1 404 Not Found\r\nContent-Length: 16\r\n\r\n{"error":"path"}',
    '204': b'HTTP/1.1 204 No Content\r\nConnection: close\r\n\r\n',
    'most': HEAD + b'x' * (MOST - len(HEAD)),
    'more': HEAD + b'x' * (MOST - len(HEAD) + 1),
    'none': b'',
    'head': b'HTTP/1.1 200 OK\r\nContent-Length: 5\r\n\r\nab',
    'slow': REPLY,
    'silent': None,
}
# Longer than the client waits.
HELD = 40


def trickle(connection):
    """Gives an answer byte by byte, as far as the time goes."""
    for byte in ANSWERS['slow'][:HELD]:
        connection.sendall(bytes([byte]))
        time.sleep(1)


def answer(connection, word):
    """Reads what is asked and gives the answer of the word."""
    if ANSWERS[word] is None:
        time.sleep(HELD)
        return
    print(word, repr(connection.recv(65536)), flush=True)
    try:
        if word == 'slow':
            trickle(connection)
        else:
            connection.sendall(ANSWERS[word])
    except OSError as error:
        print(word, error, flush=True)


def main(words):
    unknown = [word for word in words if word not in ANSWERS]
    if unknown or not words:
        sys.exit(__doc__)
    if os.path.exists('api.sock'):
        os.remove('api.sock')
    with socket.socket(socket.AF_UNIX) as server:
        server.bind('api.sock')
        server.listen(5)
        print('ready', flush=True)
        for word in words:
            with server.accept()[0] as connection:
                answer(connection, word)


main(sys.argv[1:])
