"""The processes that a run starts: each is ended by its own number, also when the run is interrupted."""

import signal
import subprocess
import threading

PATIENCE = 5  # seconds that a process has to end by itself before it is killed


class Stopped(Exception):
    """The run is ending: nothing new is started."""


class Processes:
    """What was started and may still run."""

    def __init__(self):
        self._lock = threading.Lock()
        self._running = []
        self._is_ending = False

    def start(self, command, **options):
        with self._lock:
            if self._is_ending:
                raise Stopped
            process = subprocess.Popen(command, stdin=subprocess.DEVNULL, **options)
            self._running.append(process)
            return process

    def end(self, process, kill=False):
        """Ends one: its exit status, below zero the signal that ended it."""
        if process.poll() is None:
            process.send_signal(signal.SIGCONT)  # else a stopped one takes no other signal
            process.send_signal(signal.SIGKILL if kill else signal.SIGTERM)
        try:
            status = process.wait(PATIENCE)
        except subprocess.TimeoutExpired:
            process.kill()
            status = process.wait()
        with self._lock:
            if process in self._running:
                self._running.remove(process)
        return status

    def end_all(self):
        with self._lock:
            self._is_ending = True
            running = list(self._running)
        for process in running:
            self.end(process)
