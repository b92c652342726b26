"""A TCP port over a sample that takes one connection: each connection to the port has a sample of its own, so that
`lislab play` can close the line and connect again."""
import socket
import threading


class Bridge:
    """Connections to samples that `start` begins, each over the same file."""

    def __init__(self, start):
        self._start, self._samples = start, []
        self._server = socket.create_server(("127.0.0.1", 0))
        self.port = self._server.getsockname()[1]
        self._work = threading.Thread(target=self._run, daemon=True)
        self._work.start()

    def _run(self):
        while True:
            try:
                line, _ = self._server.accept()
            except OSError:
                return
            self.over()
            sample = self._start()
            pumps = [threading.Thread(target=pump, args=ends, daemon=True)
                     for ends in ((line, sample.line), (sample.line, line))]
            self._samples.append((sample, line, pumps))
            for one in pumps:
                one.start()

    def over(self):
        """Waits until the samples have ended, after their lines are closed."""
        for sample, line, pumps in self._samples:
            for one in pumps:
                one.join()
            line.close()
            sample.end()
        self._samples.clear()

    def close(self):
        """Takes no more connections."""
        self._server.shutdown(socket.SHUT_RDWR)
        self._server.close()
        self._work.join()
        self.over()


def pump(source, target):
    """Carries bytes until the source is closed; then the target gets no more."""
    try:
        while data := source.recv(4096):
            target.sendall(data)
    except OSError:
        pass
    try:
        target.shutdown(socket.SHUT_RDWR)
    except OSError:
        pass
