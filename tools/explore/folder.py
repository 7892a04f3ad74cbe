"""The folder of an exploration: how it is laid out, whether it is that of the same exploration, and who has it."""
import fcntl
import json
import os
import shutil

from explore.chunks import RUN_CHUNK, points_of_chunk, write_chunks
from flow.program import Program
from flow.refused import WRONG_WORDS, Refused


def lay_out(options, limits, base, grid):
    """Lays out the folder, or looks whether it is one to go on with."""
    points = options.points or points_of_chunk(grid)
    asked = {'fifos': dict(zip(map(' '.join, grid.axes), grid.depths)), 'points': points, 'limits': limits}
    if options.resume or options.collect:
        go_on_with(options.out, base, asked)
    elif os.path.exists(options.out):
        raise Refused(WRONG_WORDS, f'{options.out} is there; --resume goes on with it, and --out names another folder')
    else:
        prepare(options.out, base, grid, asked)


def prepare(folder, base, grid, asked):
    """Lays out a new folder: the program, the session, the chunks, and the script that runs one of them."""
    os.makedirs(os.path.join(folder, 'chunks'))
    os.makedirs(os.path.join(folder, 'answers'))
    shutil.copy2(Program().path, os.path.join(folder, 'sim_cli'))
    with open(os.path.join(folder, 'base.flow'), 'w', encoding='ascii') as file:
        file.write(base.text)
    script = os.path.join(folder, 'run_chunk')
    with open(script, 'w', encoding='ascii') as file:
        file.write(RUN_CHUNK)
    os.chmod(script, 0o755)
    write_chunks(folder, base, grid, asked['points'])
    with open(os.path.join(folder, 'asked.json'), 'w', encoding='ascii') as file:
        json.dump(asked, file, indent=1)


def go_on_with(folder, base, asked):
    """Looks whether a folder is that of the same exploration."""
    try:
        with open(os.path.join(folder, 'asked.json'), encoding='ascii') as file:
            kept = json.load(file)
        with open(os.path.join(folder, 'base.flow'), encoding='ascii') as file:
            text = file.read()
    except OSError as error:
        raise Refused(WRONG_WORDS, f'{folder} is no exploration that was begun') from error
    if kept != asked or text != base.text:
        raise Refused(WRONG_WORDS, f'{folder} explores another session or grid, or takes other options; choose another folder with --out')


def locked(folder):
    """A file that this process, and the jobs that it starts, hold as long as they run."""
    file = open(os.path.join(folder, 'lock'), 'w', encoding='ascii')
    try:
        fcntl.flock(file, fcntl.LOCK_EX | fcntl.LOCK_NB)
    except OSError as error:
        raise Refused(WRONG_WORDS, f'{folder} is being explored by another process') from error
    return file
