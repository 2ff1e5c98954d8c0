"""The built programs that the scripts here run, or those that $SHACL_KEEP and $SHACL_KEEP_TRIPLES name; and
the Python package of the checkout, by which some of them read lines."""
import os
import sys

TOP = os.path.dirname(os.path.dirname(os.path.abspath(__file__)))
sys.path.insert(0, os.path.join(TOP, "python"))


def built(crate, variable):
    """The program of a crate."""
    return os.environ.get(variable) or os.path.join(TOP, "crates", crate, "out", crate)


PROGRAM = built("shacl_keep", "SHACL_KEEP")
TRIPLES = built("ttl_triples", "SHACL_KEEP_TRIPLES")
