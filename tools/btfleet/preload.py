"""Makes a worker one of a fleet: dask-worker ADDRESS --preload /PATH/TO/tools/btfleet/preload.py [--folder PATH] [--memory BYTES] [--seconds N]

Words behind these are the host's own: what those who ask may have of it.
"""
import pathlib
import sys

import click

sys.path.append(str(pathlib.Path(__file__).resolve().parent.parent))

from btfleet.child import Limits  # noqa: E402  (the line above finds it)
from btfleet.serving import Allowed, serve  # noqa: E402
from btfleet.sizes import bytes_of  # noqa: E402

SERVED = {}


def size(_context, _option, value):
    """A size in bytes, of the words of the command."""
    try:
        return bytes_of(value)
    except ValueError as fault:
        raise click.BadParameter(str(fault)) from fault


@click.command()
@click.option("--folder", "folders", multiple=True, type=click.Path(exists=True, file_okay=False, resolve_path=True),
              help="a folder from which recordings are read; without it all")
@click.option("--memory", default="0", callback=size, help="the most memory of a run, as 2G; 0 is no limit")
@click.option("--seconds", default=Limits.seconds, type=click.FloatRange(min=1), help="the longest time of a run")
def dask_setup(worker, folders, memory, seconds):
    """Lets the worker answer btfleet, within what its words allow."""
    if hasattr(worker, "startup_information"):
        SERVED[worker] = serve(worker, Allowed(tuple(folders), Limits(memory, seconds)))


def dask_teardown(worker):
    """Ends what the worker runs."""
    host, task = SERVED.pop(worker, (None, None))
    if host:
        task.cancel()
        host.end_all()
