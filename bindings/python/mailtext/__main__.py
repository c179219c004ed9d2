"""`python -m mailtext` is the command `mailtext`."""

from .command import main

main()
