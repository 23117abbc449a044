"""Runs humpipe, which pipes Humdrum scores through commands of the Humdrum Toolkit.

    >>> print(run('out: read tune | mint', {'tune': '**kern\\n4g\\n8a\\n*-\\n'}), end='')
    **mint
    [g]
    +M2
    *-

`run` answers the text that a plan means, and raises a `Fault` where a stage refuses and a `PlanFault` where the plan is at fault. `map`
runs a plan over many scores, `corpus` over folders of them, and `table` makes one table of what it gives. `records` and `frame` cut what is written
into tokens. `page` makes a page on which one sees the columns of each stage."""
from typing import Any

from . import plot
from .corpora import Summary, corpus
from .faults import Error, Fault, Missing, OutOfTime, PlanFault, RunError
from .many import Outcome
from .many import map as map
from .program import program_version
from .running import Text, run
from .scores import Record, records
from .show import page
from .tables import Table, frame, table

__version__ = '1.1.0'
# `map` isn't among them: `from humpipe import *` leaves Python's own
__all__ = ['Error', 'Fault', 'Missing', 'OutOfTime', 'Outcome', 'PlanFault', 'Record', 'RunError', 'Summary', 'Table', 'Text', 'corpus', 'frame', 'page',
           'plot', 'program_version', 'records', 'run', 'table']


def load_ipython_extension(ipython: Any) -> None:
    """Called by `%load_ext humpipe`."""
    from .notebook import load
    load(ipython)
