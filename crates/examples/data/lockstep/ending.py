"""How the scripts of this folder end: with the status of their work, or with a line that says what is wrong."""
import os
import sys


def run(main, usage):
    """Ends with the status of main(words), which gets the words of the command line. Too few words, or a file that cannot be
    read, end with a line; and where the reader of the output goes away, nothing is told."""
    name, words = os.path.basename(sys.argv[0]), sys.argv[1:]
    if len(words) < len(usage.split()):
        sys.exit(f"usage: {name} {usage}")
    try:
        status = main(words)
        sys.stdout.flush()
    except BrokenPipeError:
        os.dup2(os.open(os.devnull, os.O_WRONLY), sys.stdout.fileno())
        status = 5
    except (OSError, ValueError) as error:
        why = f"{error.filename}: {error.strerror}" if isinstance(error, OSError) and error.filename else str(error)
        sys.exit(f"{name}: {why}")
    sys.exit(status)
