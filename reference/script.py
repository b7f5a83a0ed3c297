"""How the scripts end when their output cannot be written: in a message, without a trace."""

import os
import sys

READER_GONE = 141  # as a shell gives it for a program ended by a closed pipe
FAILED = 2


def finish(main):
    """Runs a script and ends with its status."""
    try:
        status = main()
        if sys.stdout is not None:
            sys.stdout.flush()
    except BrokenPipeError:
        forget_output()
        status = READER_GONE
    except OSError as error:
        forget_output()
        print(error, file=sys.stderr)
        status = FAILED
    sys.exit(status)


def forget_output():
    """Lets nothing more be written, not even at the end of the process."""
    os.dup2(os.open(os.devnull, os.O_WRONLY), sys.stdout.fileno())
