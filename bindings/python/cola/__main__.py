# SPDX-License-Identifier: MIT
"""python3 -m cola FILE: a shell for people."""

import sys

from cola.shell import main

sys.exit(main())
