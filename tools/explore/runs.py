"""The runs of the chunks, which GNU parallel spreads over processors and machines."""
import os
import re
import shutil
import signal
import socket
import subprocess
import sys
import time

from flow.refused import NO_PROGRAM, Refused

LOOK = 0.05  # seconds between two looks at what has come
GRACE = 0.2  # seconds in which GNU parallel ends after a signal


def words_for_parallel(options, limits):
    """The command line of GNU parallel, for the folder of the exploration. Other machines get a folder below the home there."""
    words = ['parallel', '--joblog', 'jobs.log', '--results', 'answers/{}', '--retries', str(options.retries)]
    if os.path.exists(os.path.join(options.out, 'jobs.log')):
        words += ['--resume-failed']
    if options.jobs:
        words += ['--jobs', str(options.jobs)]
    if options.bar:
        words += ['--bar']
    if options.hosts:
        there = f'.explore-{socket.gethostname()}-{os.getpid()}'
        words += ['--sshloginfile', os.path.abspath(options.hosts), '--workdir', there, '--cleanup']
        words += [word for name in ('sim_cli', 'base.flow', 'run_chunk') for word in ('--basefile', name)]
        words += ['--transferfile', 'chunks/{}']
    return words + ['./run_chunk', '{}'] + limits + ['::::', 'chunks.txt']


class Done:
    """The chunks that are done, by the job log, which is read as far as it has been written."""

    def __init__(self, folder):
        self.path, self.read, self.rest, self.names = os.path.join(folder, 'jobs.log'), 0, '', set()

    def look(self):
        """Reads on."""
        if not os.path.exists(self.path):
            return
        with open(self.path, encoding='ascii', errors='replace') as file:
            file.seek(self.read)
            lines = (self.rest + file.read()).split('\n')
            self.read = file.tell()
        self.rest = lines.pop()
        for line in lines:
            cells = line.split('\t')
            if len(cells) == 9 and cells[6] == '0' and cells[7] == '0':
                self.names.update(re.findall(r'run_chunk (\d{7})', cells[8]))


def stop(child):
    """Has GNU parallel start no more jobs, and then end those that run."""
    for _ in range(2):
        if child.poll() is None:
            child.send_signal(signal.SIGTERM)
            time.sleep(GRACE)
    child.wait()


def run_all(options, limits, collector, lock):
    """Runs the chunks that are not done, and collects what comes; gives the names of those that are done then."""
    if shutil.which('parallel') is None:
        raise Refused(NO_PROGRAM, 'GNU parallel is needed (apt-get install parallel)')
    done = Done(options.out)
    child = subprocess.Popen(words_for_parallel(options, limits), cwd=options.out, stdin=subprocess.DEVNULL,
                             stdout=subprocess.DEVNULL, pass_fds=[lock.fileno()])
    signal.signal(signal.SIGTERM, lambda *_: sys.exit(143))
    try:
        while True:
            ended = child.poll() is not None
            done.look()
            collector.take(done.names)
            if ended:
                return done.names
            time.sleep(LOOK)
    finally:
        stop(child)
