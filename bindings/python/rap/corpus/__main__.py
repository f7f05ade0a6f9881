"""`python3 -m rap.corpus` is the command `rap-corpus`."""
import sys

from rap.corpus.command import main

sys.exit(main())
