"""How every script answers: its page where it is asked for, one line where something is amiss, and the program that it runs."""
import functools
import os
import signal
import subprocess
import sys

TOP = os.path.dirname(os.path.dirname(os.path.abspath(__file__)))
NAME = os.path.basename(sys.argv[0])
LAUNCHER = os.path.join(TOP, "tiger")
# As in sysexits.h.
USAGE, NO_INPUT, UNAVAILABLE = 64, 66, 69


def stop(words, status=1):
    """Ends the script by one line on standard error."""
    print(f"{NAME}: {words}", file=sys.stderr)
    sys.exit(status)


def answer(main, page, hands_on=False):
    """Ends with what `main` returns, or by the page where a word asks for it: the first word alone where the others are
    handed on to a command. Where a file can't be read or written, or a command isn't there, that is told in one line."""
    asked = {"-h", "--help"} & {*(sys.argv[1:2] if hands_on else sys.argv[1:])}
    try:
        status = print(page.strip()) if asked else main()
        sys.stdout.flush()
    except BrokenPipeError:
        # Nobody reads on; what is left in the buffer isn't written at the end either.
        os.dup2(os.open(os.devnull, os.O_WRONLY), 1)
        status = 128 + signal.SIGPIPE
    except OSError as error:
        stop(f"{error.filename or 'a file'}: {error.strerror}", NO_INPUT)
    except KeyboardInterrupt:
        status = 128 + signal.SIGINT
    sys.exit(status)


def misused(page):
    """Ends the script, whose words ask for nothing, by its page on standard error."""
    print(page.strip(), file=sys.stderr)
    sys.exit(USAGE)


def readable(path):
    """The path, once its file was opened: else the script ends by a line."""
    with open(path, "rb") as file:
        file.read(1)
    return path


@functools.cache
def program(named=None):
    """The path of the program: what is named, or the variable TIGER, or the launcher. One that can't be run ends the script
    by a line, and so does a launcher that has none to run."""
    path = os.path.abspath(named or os.environ.get("TIGER") or LAUNCHER)
    if not (os.path.isfile(path) and os.access(path, os.X_OK)):
        stop(f"{path} is no program that can be run", UNAVAILABLE)
    if path == LAUNCHER:
        asked = subprocess.run([path, "--program"], stdin=subprocess.DEVNULL, capture_output=True, text=True)
        if asked.returncode:
            stop((asked.stderr.splitlines() or ["tiger: no program"])[-1].removeprefix("tiger: "), asked.returncode)
    return path
