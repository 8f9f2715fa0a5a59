"""python3 -m zakdomp_command is the command `zakdomp`."""
import sys

from zakdomp_command.main import main

if __name__ == "__main__":
    sys.exit(main())
