"""A network namespace of its own for a script."""
import os
import subprocess
import sys
from typing import List

# In the environment of a run that is in its own namespace.
INSIDE = "RTNL_IN_NAMESPACE"


def entered(script: str, words: List[str], what: str) -> bool:
    """Whether the script runs in a network namespace of its own. Where it doesn't yet, it is run
    there instead; where none can be made a line says that this is skipped."""
    if INSIDE in os.environ:
        return True
    tried = subprocess.run(["unshare", "-n", "true"], stderr=subprocess.DEVNULL, check=False)
    if tried.returncode:
        print(f"skipped: {what}, since no network namespace can be made here")
        return False
    os.environ[INSIDE] = "1"
    os.execvp("unshare", ["unshare", "-n", sys.executable, script, *words])
