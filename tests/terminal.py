# Runs a command on a terminal of its own: terminal.py SEEN COMMAND.. Once the terminal shows the text SEEN, Ctrl-C is
# typed; where SEEN is empty, nothing is. Prints all that the terminal showed; the status is the command's, and where a
# signal ended it, 128 and the signal's number.
import os
import pty
import signal
import sys

seen, command = sys.argv[1].encode(), sys.argv[2:]
child, terminal = pty.fork()
if child == 0:
    signal.signal(signal.SIGINT, signal.SIG_DFL)  # it may be ignored here, as in whatever a script starts behind it
    os.execvp(command[0], command)
shown = b""
while True:
    try:
        part = os.read(terminal, 4096)
    except OSError:  # how Linux says that nobody writes there any more
        break
    if not part:
        break
    shown += part
    if seen and seen in shown:
        os.write(terminal, b"\x03")
        seen = b""
os.write(sys.stdout.fileno(), shown)
status = os.waitstatus_to_exitcode(os.waitpid(child, 0)[1])
sys.exit(status if status >= 0 else 128 - status)
