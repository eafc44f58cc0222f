"""How the tools end: with a status, and with one line on standard error where something is wrong; never with a trace."""
import os
import sys

from errors import BadInput


def run(name, main):
    """Calls `main` with the words of the call, and ends with the status that it answers. Input that it refuses is
    told in one line, with status 2. A reader that takes no more is no fault."""
    try:
        status = main(sys.argv[1:])
        sys.stdout.flush()
    except BadInput as refused:
        print(f"{name}: {refused}", file=sys.stderr)
        status = 2
    except BrokenPipeError:
        # Nothing more can be written; without this Python would say so again as it ends.
        os.dup2(os.open(os.devnull, os.O_WRONLY), 1)
        status = 0
    except OSError as error:
        print(f"{name}: {error.strerror or error}", file=sys.stderr)
        status = 2
    except KeyboardInterrupt:
        status = 130
    sys.exit(status)
