"""`python3 -m alarmd_gateway COMMAND ..`"""

import sys

from .cli import main

sys.exit(main(sys.argv[1:]))
