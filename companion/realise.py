"""The forms in which a linear function can be written."""
from __future__ import annotations

from .balanced import balanced
from .blocks import parallel
from .form import Form, from_matrices
from .functions import Function
from .linear import Linear
from .sections import cascade, direct


def expanded(made: Function, system: Linear) -> Form:
    """The given states, with all that stands between multiplied out."""
    return from_matrices(made, "expanded",
                         "the given states, with outputs and 'val's multiplied out of the next states", system,
                         [it.start for it in made.states], [it.name for it in made.states])


FORMS = {"expanded": expanded, "cascade": cascade, "parallel": parallel, "balanced": balanced, "direct": direct}
