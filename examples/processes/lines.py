"""Lines over a socket of this machine."""
import contextlib
import socket
from typing import List, Optional


class Lines:
    """A connection on which both sides send lines. What came is kept until its line is whole."""

    def __init__(self, connection: socket.socket) -> None:
        connection.setsockopt(socket.IPPROTO_TCP, socket.TCP_NODELAY, 1)
        self.connection = connection
        self._begun = b''

    def send(self, line: str) -> None:
        """Sends a line. Where the other process is gone, it is lost: that one's end is met when reading."""
        with contextlib.suppress(ConnectionError):
            self.connection.sendall(line.encode() + b'\n')

    def read(self) -> Optional[List[str]]:
        """The lines that came, if only a part of one; none at the end, where a line that isn't whole is let go."""
        try:
            came = self.connection.recv(65_536)
        except ConnectionError:
            came = b''
        if not came:
            return None
        *whole, self._begun = (self._begun + came).split(b'\n')
        return [line.decode() for line in whole]

    def close(self) -> None:
        """Ends the connection. What came and wasn't read is let go."""
        self.connection.close()


def listener() -> socket.socket:
    """A socket that listens on a free port of 127.0.0.1."""
    return socket.create_server(('127.0.0.1', 0), backlog=1024)


def port_of(listening: socket.socket) -> int:
    """The port on which it listens."""
    port: int = listening.getsockname()[1]
    return port


def connected(port: int) -> Optional[Lines]:
    """A connection to the process that listens there; none where nobody does."""
    try:
        return Lines(socket.create_connection(('127.0.0.1', port)))
    except ConnectionError:
        return None
