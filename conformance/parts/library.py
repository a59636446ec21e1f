"""The proved judge, as a library: it judges the certificate of a recording that was judged valid, if it is built (bindings/build)."""
import importlib.util
import os

from . import certificates, strong

MODULE = os.path.join(strong.TOP, "bindings", "python", "ame.py")
NO_MEMORY, VALID, LONG = 9, 11, 14


class Disagreement(Exception):
    """The judges differ on a certificate."""


def loaded():
    """Returns the module over the library, and None if the library isn't built."""
    try:
        spec = importlib.util.spec_from_file_location("ame", MODULE)
        module = importlib.util.module_from_spec(spec)
        spec.loader.exec_module(module)
    except OSError:
        return None
    return module


LIBRARY = loaded()


def check(state):
    """Raises Disagreement if the library finds the certificate of a run not valid, or of another output."""
    if LIBRARY is None:
        return
    certificate = certificates.of(state)
    if len(certificate) > strong.MOST_BYTES:
        return
    judged = LIBRARY.check(certificate)
    expected = "".join(f"{integer}\n" for integer in state.output) + f"valid {len(state.made)}\n"
    if judged.status not in (VALID, NO_MEMORY, LONG) or judged.status == VALID and judged.lines.decode() != expected:
        raise Disagreement(f"libame ends with {judged.lines[-60:].decode()!r} on the certificate; this judge finds the recording valid, by\n{certificate.decode()}")
