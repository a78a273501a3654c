"""What the tests of the scripts share."""

import os


def write(path, text):
    """A file that can be run, in a folder that is made if it isn't there."""
    os.makedirs(os.path.dirname(path), exist_ok=True)
    with open(path, "w", encoding="utf-8") as file:
        file.write(text)
    os.chmod(path, 0o755)
