"""A client's end of a connection, byte for byte."""
import select
import socket
import struct
import time

from served.server import MAX_SECONDS

PIECE = 65536


class Link:
    """A connection to a server on this machine. What is sent goes out at once."""

    def __init__(self, port):
        self.socket = socket.create_connection(("127.0.0.1", port), timeout=MAX_SECONDS)
        self.socket.setsockopt(socket.IPPROTO_TCP, socket.TCP_NODELAY, 1)
        self.come = b""  # what was read and isn't taken
        self.all = b""  # what was read
        self.was_reset = False  # by the server

    def send(self, some):
        """Sends the bytes. Whether the server still took them."""
        try:
            self.socket.sendall(some)
            return True
        except OSError:
            return False

    def end(self):
        """Ends the sending; what the server says can still be read."""
        try:
            self.socket.shutdown(socket.SHUT_WR)
        except OSError:
            pass  # the server has gone away

    def exchange(self, stream, piece=PIECE):
        """Sends the whole stream, in pieces of at most so many bytes, and ends the sending, reading meanwhile. All that
        comes until the server closes, and whether it closes in time."""
        self.socket.setblocking(False)
        end, sent, ended = time.monotonic() + MAX_SECONDS, 0, False
        while time.monotonic() < end:
            if sent == len(stream) and not ended:
                ended = True
                self.end()
            ready, free, _ = select.select([self.socket], [] if ended else [self.socket], [], 1)
            try:
                if free:
                    sent += self.socket.send(stream[sent:sent + piece])
            except BlockingIOError:
                pass
            except OSError as error:
                # The server has closed: what it said tells why.
                self.was_reset |= isinstance(error, ConnectionResetError)
                sent, ended = len(stream), True
            if ready and not self.take_in():
                return self.come, True
        return self.come, False

    def take_in(self):
        """Reads what is there. Whether anything was; nothing is where the server has closed."""
        try:
            more = self.socket.recv(PIECE)
        except BlockingIOError:
            return True
        except ConnectionResetError:
            self.was_reset = True
            return False
        except OSError:
            return False
        self.come += more
        self.all += more
        return bool(more)

    def read(self, size):
        """So many bytes, or fewer where no more come in time or the server closes."""
        self.socket.settimeout(MAX_SECONDS)
        while len(self.come) < size and self.take_in():
            pass
        some, self.come = self.come[:size], self.come[size:]
        return some

    def rest(self):
        """All that comes until the server closes."""
        self.socket.settimeout(MAX_SECONDS)
        while self.take_in():
            pass
        some, self.come = self.come, b""
        return some

    def is_silent(self, seconds):
        """Whether nothing comes within this time, and the server doesn't close."""
        ready, _, _ = select.select([self.socket], [], [], seconds)
        return not ready and not self.come

    def reset(self):
        """Resets the connection."""
        self.socket.setsockopt(socket.SOL_SOCKET, socket.SO_LINGER, struct.pack("ii", 1, 0))
        self.socket.close()

    def close(self):
        self.socket.close()

    def __enter__(self):
        return self

    def __exit__(self, *_):
        self.close()
