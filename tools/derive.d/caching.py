"""Where Python keeps what it compiles of modules, for tests that run commands hundreds of times."""
import contextlib
import os
import tempfile

PREFIX, NONE_KEPT = "PYTHONPYCACHEPREFIX", "PYTHONDONTWRITEBYTECODE"


@contextlib.contextmanager
def compiled_once():
    """Has the commands that are run meanwhile compile their modules once, which is half the time of a short one. These
    are kept in a folder that goes at the end, or where who calls this keeps them, and never in the checkout."""
    if os.environ.get(PREFIX):
        yield
        return
    before = os.environ.pop(NONE_KEPT, None)
    with tempfile.TemporaryDirectory() as folder:
        os.environ[PREFIX] = folder
        try:
            yield
        finally:
            del os.environ[PREFIX]
            if before is not None:
                os.environ[NONE_KEPT] = before
