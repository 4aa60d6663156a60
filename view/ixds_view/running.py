"""Runs of ixds."""
import subprocess
import sys

from ixds_view.reading import Failed


def run(program, words, room=None):
    """What a run of ixds prints. In the folder where this one is, what it says on standard error goes through, and its report."""
    try:
        ran = subprocess.run([program, *words], cwd=room, stdout=subprocess.PIPE, stderr=subprocess.DEVNULL if room else None)
    except OSError as error:
        raise Failed(125, 'cannot run %s: %s' % (program, error.strerror))
    if ran.returncode != 0:
        if room is None and ran.returncode != 2:
            sys.stdout.buffer.write(ran.stdout)
            sys.stdout.flush()
        raise Failed(ran.returncode if 0 < ran.returncode < 126 else 125)
    return ran.stdout
