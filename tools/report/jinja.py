"""Jinja2, which the system's Python may have where another one runs the script."""
import os
import subprocess
import sys

from flow.program import TOP
from flow.refused import NO_PROGRAM, Refused

SYSTEM_PYTHON = '/usr/bin/python3'  # which sees the distribution's packages


def has_jinja(python):
    """Whether a Python has Jinja2."""
    return subprocess.run([python, '-c', 'import jinja2'], stderr=subprocess.DEVNULL, check=False).returncode == 0


def need_jinja():
    """Looks for Jinja2; where this Python has none, the system's goes on."""
    try:
        import jinja2  # noqa: F401
    except ImportError as error:
        is_other = os.path.realpath(sys.executable) != os.path.realpath(SYSTEM_PYTHON)
        if is_other and os.access(SYSTEM_PYTHON, os.X_OK) and has_jinja(SYSTEM_PYTHON):
            os.execv(SYSTEM_PYTHON, [SYSTEM_PYTHON, os.path.join(TOP, 'report')] + sys.argv[1:])
        raise Refused(NO_PROGRAM, 'Jinja2 is needed (apt-get install python3-jinja2)') from error
