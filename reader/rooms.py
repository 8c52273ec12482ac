"""Folders for files of the reader's own, which are gone at its end, also where a signal ends it."""
import signal, tempfile, threading


def make_room():
    """A folder that goes when it is left, or at the end. No signal comes between the folder and the note that it has to go."""
    if threading.current_thread() is not threading.main_thread():
        return tempfile.TemporaryDirectory()
    before = signal.pthread_sigmask(signal.SIG_BLOCK, {signal.SIGTERM, signal.SIGINT})
    try:
        return tempfile.TemporaryDirectory()
    finally:
        signal.pthread_sigmask(signal.SIG_SETMASK, before)
