"""MiniZinc's solver configuration, with the paths of this checkout."""
import json
import os
import tempfile
from contextlib import contextmanager

HERE = os.path.dirname(os.path.dirname(os.path.realpath(__file__)))
TEMPLATE = os.path.join(HERE, "qecode.msc.in")
NAME = "qecode.msc"


def configuration():
    """The text of the configuration."""
    with open(TEMPLATE, encoding="ascii") as file:
        template = file.read()
    quoted = json.dumps(HERE)[1:-1]
    return template.replace("@HERE@", quoted)


def write_configuration(folder):
    """Writes the configuration into the folder, whole or not at all, and gives its path."""
    path = os.path.join(folder, NAME)
    handle, unfinished = tempfile.mkstemp(dir=folder, prefix=".qecode-", suffix=".part")
    try:
        with os.fdopen(handle, "w", encoding="ascii") as file:
            file.write(configuration())
        os.chmod(unfinished, 0o644)
        os.replace(unfinished, path)
    except BaseException:
        os.unlink(unfinished)
        raise
    return path


@contextmanager
def written_configuration():
    """The path of a configuration that is there for a while, so that nothing has to be installed."""
    with tempfile.TemporaryDirectory(prefix="qecode-") as folder:
        yield write_configuration(folder)
