"""python3 -m entangle.server FILE [--check]"""

import sys

from ._command import main

sys.exit(main())
