"""How ./lash ends: with a status that is a verdict only if there was one, and never in a trace."""

import os
import sys

ACCEPTED, NOT_ACCEPTED, BAD_INPUT, FAILED = range(4)
INTERRUPTED = 130  # as a shell gives it for a program ended by the keyboard


def guarded(main):
    """The status of a command, whatever happens in it."""
    open_streams()
    try:
        status = main()
    except SystemExit as end:
        status = end.code
    except KeyboardInterrupt:
        status = INTERRUPTED
    except BaseException as fault:
        complain(f"a fault of the tool itself, and no verdict: {type(fault).__name__}: {fault}")
        status = FAILED
    if not flushed(sys.stdout):
        complain("the output cannot be written")
        status = FAILED
    flushed(sys.stderr)
    return status


def open_streams():
    """Takes the numbers of closed streams, so that no file opened later is written to as one of them."""
    for number in range(3):
        try:
            os.fstat(number)
        except OSError:
            os.open(os.devnull, os.O_RDWR)


def reason(error):
    return getattr(error, "strerror", None) or str(error)


def complain(text):
    """A message in one line; if it cannot be written, the status alone tells."""
    try:
        if sys.stderr is not None:
            print(f"lash: {' '.join(text.split())}", file=sys.stderr, flush=True)
    except OSError:
        forget(sys.stderr)


def say(data, status):
    """Writes text or bytes to standard output and gives the status on; a reader that has gone is no fault."""
    if sys.stdout is None:
        return status
    try:
        if isinstance(data, bytes):
            sys.stdout.buffer.write(data)
        else:
            sys.stdout.reconfigure(errors="replace")
            print(data)
        sys.stdout.flush()
    except BrokenPipeError:
        forget(sys.stdout)
    except OSError as error:
        forget(sys.stdout)
        complain(f"the report cannot be written: {reason(error)}")
        return FAILED
    return status


def flushed(stream):
    """Whether all is written that was to be; what is not is given up, so that the end of the process cannot fail by it."""
    try:
        if stream is not None:
            stream.flush()
    except BrokenPipeError:
        forget(stream)
    except OSError:
        forget(stream)
        return False
    return True


def forget(stream):
    """Lets nothing more be written to a stream."""
    os.dup2(os.open(os.devnull, os.O_WRONLY), stream.fileno())
