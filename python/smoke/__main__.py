"""python3 -m smoke: check a book, find one in a CSV file, prepare a file, ask a question."""
import sys

from smoke.commands import main

sys.exit(main(sys.argv[1:]))
