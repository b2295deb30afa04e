"""`python3 -m gandovel` is the command `gandovel`."""
import sys

from .cli import main

sys.exit(main())
