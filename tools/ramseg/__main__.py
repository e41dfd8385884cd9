"""Runs `./ramseg` on the words of the command line."""

import os
import sys

sys.path.insert(0, os.path.dirname(os.path.dirname(os.path.realpath(__file__))))

from ramseg.main import main  # noqa: E402

sys.exit(main(sys.argv[1:]))
