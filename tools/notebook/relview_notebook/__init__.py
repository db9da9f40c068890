"""Scripts of relview in a notebook: a kernel for Jupyter, with what colours and exports its cells.

The tools of this repository that it stands on are found beside the folder of this package.
"""
import sys
from pathlib import Path

TOOLS = Path(__file__).resolve().parent.parent.parent
TOP = TOOLS.parent
if str(TOOLS) not in sys.path:
    sys.path.append(str(TOOLS))
