"""What ./explain tells of a session."""
import os
import signal
import subprocess
import threading

from flow.program import TOP


def stop(child):
    """Stops a script and the program that it asks."""
    try:
        os.killpg(child.pid, signal.SIGKILL)
    except ProcessLookupError:
        pass


def explained(path, text, options=(), seconds=60):
    """The lines that ./explain tells of a session, whose text is given in bytes, in so many seconds."""
    surroundings = {**os.environ, 'PYTHONUNBUFFERED': '1'}  # a line comes when it is told
    child = subprocess.Popen([os.path.join(TOP, 'explain'), path, *options], stdin=subprocess.PIPE,
                             stdout=subprocess.PIPE, env=surroundings, start_new_session=True)
    timer = threading.Timer(seconds, stop, [child])
    timer.start()
    told, _ = child.communicate(text)
    timer.cancel()
    return told[:told.rfind(b'\n') + 1].decode('utf-8', 'replace').splitlines()
