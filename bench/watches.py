#!/usr/bin/env python3
"""watches.py [CONNECTIONS [SETTINGS]]: what many hosts ask of an etcd that they follow, on this machine.

An etcd of the path is begun on the loopback, with SETTINGS settings (100) of some 50 bytes below fleet/all/. CONNECTIONS connections (4,000), one for each
host, watch fleet/all/ and a prefix of their own, as examples/fleet/follow does; they are bare HTTP/2, without TLS, of one process. Printed are the memory of
etcd for each of them, and in three rounds how long it takes, what etcd's processor does and how many bytes of messages it sends until each host has seen a
change, until each has read all settings, and until each has put a report of 120 bytes, all asking at once."""
import os
import resource
import select
import shutil
import socket
import statistics
import sys
import tempfile
import time
import urllib.parse

sys.path.insert(0, f'{os.path.dirname(os.path.dirname(os.path.abspath(__file__)))}/tests/system')
import fleets

ROUNDS = 3
VALUE = b'"%s"' % (b'x' * 30)
REPORT = b'x' * 120
# Kinds and flags of frames (RFC 9113).
DATA, HEADERS, SETTINGS, PING = 0, 1, 4, 6
END_STREAM, ACK, END_HEADERS = 1, 1, 4


def frame(kind, flags, stream, body):
    return len(body).to_bytes(3, 'big') + bytes([kind, flags]) + stream.to_bytes(4, 'big') + body


def headers(stream, path):
    """The head of a call, with each name and value as it is (RFC 7541, 6.2.2)."""
    pairs = ((b':method', b'POST'), (b':scheme', b'http'), (b':path', path), (b':authority', b'localhost'), (b'content-type', b'application/grpc'),
             (b'te', b'trailers'))
    return frame(HEADERS, END_HEADERS, stream, b''.join(b'\0' + bytes([len(name)]) + name + bytes([len(value)]) + value for name, value in pairs))


def field(number, data):
    """A field of a message; its length is one byte, or two."""
    size = bytes([len(data)]) if len(data) < 128 else bytes([len(data) % 128 + 128, len(data) // 128])
    return bytes([number << 3 | 2]) + size + data


def message(stream, body, last=END_STREAM):
    return frame(DATA, last, stream, b'\0' + len(body).to_bytes(4, 'big') + body)


def span(prefix):
    """A prefix as a range of keys."""
    return field(1, prefix) + field(2, prefix[:-1] + bytes([prefix[-1] + 1]))


class Host:
    """The connection of a host: two watches on a stream, and calls on streams after it."""

    def __init__(self, place, name):
        self.name, self.stream, self.buffer, self.events, self.ended = name, 1, b'', 0, 0
        self.link = socket.create_connection(place)
        creates = b''.join(message(1, field(1, span(prefix)), 0) for prefix in (b'fleet/all/', b'fleet/hosts/%s/' % name))
        self.link.sendall(b'PRI * HTTP/2.0\r\n\r\nSM\r\n\r\n' + frame(SETTINGS, 0, 0, b'') + headers(1, b'/etcdserverpb.Watch/Watch') + creates)

    def call(self, method, body):
        self.stream += 2
        self.link.sendall(headers(self.stream, b'/etcdserverpb.KV/' + method) + message(self.stream, body))

    def take(self):
        """Takes what came, and counts events and calls that ended with an answer."""
        self.buffer += self.link.recv(65536)
        while len(self.buffer) >= 9 and len(self.buffer) >= (size := 9 + int.from_bytes(self.buffer[:3], 'big')):
            kind, flags, stream, body = self.buffer[3], self.buffer[4], int.from_bytes(self.buffer[5:9], 'big'), self.buffer[9:size]
            self.buffer = self.buffer[size:]
            if kind == DATA:
                self.events += stream == 1 and VALUE in body
                self.ended += stream == self.stream
            elif kind in (SETTINGS, PING) and not flags & ACK:
                self.link.sendall(frame(kind, ACK, 0, body if kind == PING else b''))


class Trial:
    """An etcd, and hosts that are connected to it."""

    def __init__(self, etcd, count, settings):
        self.etcd, self.settings = etcd, settings
        for begin in range(0, settings, 100):
            etcd.change({f'fleet/all/settings.load.k{number:04}': VALUE.decode() for number in range(begin, min(begin + 100, settings))})
        place = urllib.parse.urlsplit(etcd.client)
        before, busy, began = fleets.memory(etcd.child.pid), fleets.seconds_of(etcd.child.pid), time.monotonic()
        self.poll, self.hosts = select.epoll(), {}
        for number in range(count):
            host = Host((place.hostname, place.port), b'host%06d' % number)
            self.hosts[host.link.fileno()] = host
            self.poll.register(host.link, select.EPOLLIN)
        self.until(lambda: etcd.metric('etcd_debugging_mvcc_watcher_total') >= 2 * count)
        took, busy = time.monotonic() - began, fleets.seconds_of(etcd.child.pid) - busy
        time.sleep(2)
        print(f'{count} hosts connected with two watches each in {took:.1f} s; of etcd each {(fleets.memory(etcd.child.pid) - before) / count:.0f} KB, '
              f'and {busy / count * 1e6:.0f} us of its processor')

    def until(self, tells, seconds=120):
        """Takes what comes until it tells so."""
        end = time.monotonic() + seconds
        while not tells():
            for number, _ in self.poll.poll(0.1):
                self.hosts[number].take()
            if time.monotonic() > end:
                sys.exit('watches: not all was answered in time')

    def timed(self, begin, count):
        """Begins it, and waits until each host counts one more. Seconds, seconds of etcd's processor, bytes that it sent a host."""
        before, sent = {host: count(host) for host in self.hosts.values()}, self.etcd.figures()['sent']
        busy, start = fleets.seconds_of(self.etcd.child.pid), time.monotonic()
        begin()
        for host, number in before.items():
            self.until(lambda: count(host) > number)
        took, busy = time.monotonic() - start, fleets.seconds_of(self.etcd.child.pid) - busy
        return took, busy, (self.etcd.figures()['sent'] - sent) / len(self.hosts)

    def change(self):
        self.etcd.change({'fleet/all/settings.load.k0000': VALUE.decode()})

    def call(self, method, body_of):
        for host in self.hosts.values():
            host.call(method, body_of(host))

    def run(self):
        kinds = {'a change is seen': (self.change, lambda host: host.events),
                 f'{self.settings} settings are read': (lambda: self.call(b'Range', lambda _: span(b'fleet/all/')), lambda host: host.ended),
                 'a report is put': (lambda: self.call(b'Put', lambda host: field(1, b'fleet/reports/%s/' % host.name) + field(2, REPORT)),
                                     lambda host: host.ended)}
        print('| Until each host | Seconds | A second | Processor of etcd, us a host | Bytes sent a host |\n|---|---:|---:|---:|---:|')
        for kind, (begin, count) in kinds.items():
            took, busy, sent = (statistics.median(it) for it in zip(*(self.timed(begin, count) for _ in range(ROUNDS))))
            print(f'| {kind} | {took:.2f} | {len(self.hosts) / took:.0f} | {busy / len(self.hosts) * 1e6:.0f} | {sent:.0f} |', flush=True)


def main(count='4000', settings='100'):
    if not shutil.which('etcd'):
        sys.exit('watches: there is no etcd in the path')
    most = resource.getrlimit(resource.RLIMIT_NOFILE)[1]
    resource.setrlimit(resource.RLIMIT_NOFILE, (most, most))
    folder = tempfile.mkdtemp(prefix='watches-')
    etcd = fleets.Etcd(folder)
    try:
        etcd.start()
        etcd.change({})
        Trial(etcd, int(count), int(settings)).run()
    finally:
        fleets.kill(etcd.child)
        shutil.rmtree(folder)


if len(sys.argv) > 3:
    sys.exit(__doc__)
main(*sys.argv[1:])
