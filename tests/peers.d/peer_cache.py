"""A small RTR cache on loopback for tests/peers. It makes no run itself: it sends the bytes that it is given.

It holds a row of tables, one of which is its own at a time. A Reset Query is answered with the full run of that table, a Serial Query of an earlier one's serial with the change run from there, and of any other with a
Cache Reset. Versions are settled as RFC 8210, section 7, says. What a router sends is kept as lines in `heard`; what it should not send begins with "odd".
"""

import socket
import struct
import threading

SERIAL_NOTIFY, SERIAL_QUERY, RESET_QUERY, CACHE_RESET, ERROR_REPORT = 0, 1, 2, 8, 10
UNSUPPORTED_VERSION, UNEXPECTED_VERSION = 4, 8


def error_report(version, code, pdu, text):
    body = struct.pack(">I", len(pdu)) + pdu + struct.pack(">I", len(text)) + text
    return struct.pack(">BBHI", version, ERROR_REPORT, code, 8 + len(body)) + body


class Closed(Exception):
    """The router is gone, or is sent away."""


class Cache:
    def __init__(self, session, serials, run, versions=(0, 1), higher="answer"):
        """`run(version, first, second)` gives the bytes from one table to another, by their places in the row; from None it is a full run. `higher` says what becomes of a query of a higher version
        than the cache has: "answer" in its own highest, or "report" and close."""
        self.session, self.serials, self.run, self.versions, self.higher = session, serials, run, versions, higher
        self.now, self.heard, self.lines, self.lock = 0, [], {}, threading.Lock()
        self.socket = socket.create_server(("127.0.0.1", 0))
        self.port = self.socket.getsockname()[1]
        threading.Thread(target=self.accept, daemon=True).start()

    def accept(self):
        while True:
            try:
                line, _ = self.socket.accept()
            except OSError:
                return
            threading.Thread(target=self.serve, args=(line,), daemon=True).start()

    def close(self):
        self.socket.close()
        for line in list(self.lines):
            line.close()

    def change(self):
        """The next table is the cache's own, and all routers are told."""
        with self.lock:
            self.now += 1
            for line, version in list(self.lines.items()):
                if version is not None:
                    try:
                        line.sendall(struct.pack(">BBHII", version, SERIAL_NOTIFY, self.session, 12, self.serials[self.now]))
                    except OSError:    # it has just gone
                        pass

    # -- one router

    def serve(self, line):
        with self.lock:
            self.lines[line] = None
        try:
            while True:
                self.take(line, self.pdu(line))
        except (Closed, OSError):
            pass
        finally:
            with self.lock:
                del self.lines[line]
            line.close()

    def pdu(self, line):
        head = self.bytes(line, 8)
        length = struct.unpack(">I", head[4:])[0]
        if not 8 <= length <= 131086:
            self.heard.append("odd: " + head.hex())
            raise Closed
        return head + self.bytes(line, length - 8)

    @staticmethod
    def bytes(line, count):
        found = b""
        while len(found) < count:
            more = line.recv(count - len(found))
            if not more:
                raise Closed
            found += more
        return found

    def send_away(self, line, report):
        """Closes without losing the report: reads on until the router closes too."""
        line.sendall(report)
        line.shutdown(socket.SHUT_WR)
        line.settimeout(5)
        while line.recv(4096):
            pass
        raise Closed

    def take(self, line, pdu):
        version, kind = pdu[0], pdu[1]
        if kind == ERROR_REPORT:
            self.heard.append("odd: an Error Report of code %d: %s" % (int.from_bytes(pdu[2:4], "big"), pdu.hex()))
            raise Closed
        if kind not in (SERIAL_QUERY, RESET_QUERY):
            self.heard.append("odd: " + pdu.hex())
            raise Closed
        settled = self.lines[line]
        if settled is not None and version != settled:
            self.heard.append("odd: version %d behind %d" % (version, settled))
            self.send_away(line, error_report(settled, UNEXPECTED_VERSION, pdu, b""))
        if settled is None and version not in self.versions:
            own = max(self.versions)
            self.heard.append("version %d, where %d is the highest" % (version, own) if version > own else "version %d, which is too old" % version)
            if version < own or self.higher == "report":
                self.send_away(line, error_report(own, UNSUPPORTED_VERSION, pdu, b"no such version here"))
            version = own
        with self.lock:
            self.lines[line] = version
            line.sendall(self.answer(version, kind, pdu))

    def answer(self, version, kind, pdu):
        if kind == RESET_QUERY:
            self.heard.append("full in version %d" % version)
            return self.run(version, None, self.now)
        session, serial = struct.unpack(">H4xI", pdu[2:])
        if session == self.session and serial in self.serials[:self.now + 1]:
            self.heard.append("change from %d in version %d" % (serial, version))
            return self.run(version, self.serials.index(serial), self.now)
        self.heard.append("odd: a change of session %d from %d" % (session, serial))
        return struct.pack(">BBHI", version, CACHE_RESET, 0, 8)
