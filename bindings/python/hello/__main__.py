"""python3 -m hello is the command hello891."""

import sys

from .command import main

sys.exit(main())
