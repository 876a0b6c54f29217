"""Tells the writes of a program apart, by a standard output that is a socket of packets."""
import socket
import threading

# more bytes than such a socket takes at once
MOST = 1 << 20


class Packets(threading.Thread):
    """Takes what a program writes, each write by itself, until nobody can write any more."""

    def __init__(self):
        super().__init__(daemon=True)
        self.ours, self.output = socket.socketpair(socket.AF_UNIX, socket.SOCK_SEQPACKET)
        self.taken = []

    def begin(self):
        """Begins to take, once the program has its output."""
        self.output.close()
        self.start()

    def run(self):
        with self.ours:
            self.taken = list(iter(lambda: self.ours.recv(MOST), b""))

    def end(self, seconds):
        """Waits for the end, and returns what was written, and how many bytes each write had."""
        self.join(seconds)
        return b"".join(self.taken), [len(packet) for packet in self.taken]
