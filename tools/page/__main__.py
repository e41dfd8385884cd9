"""`python3 -m page`: writes the live page."""

import sys

from .main import main

sys.exit(main(sys.argv[1:]))
