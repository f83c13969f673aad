"""A command in a terminal of some columns: what it draws on standard error must not run over into the next line.

    terminal.py COLUMNS COMMAND WORDS..

Prints the last progress line that was drawn; fails where a line ran over."""
import fcntl, os, pty, re, struct, sys, termios

columns, words = int(sys.argv[1]), sys.argv[2:]
child, terminal = pty.fork()
if child == 0:
    fcntl.ioctl(0, termios.TIOCSWINSZ, struct.pack("HHHH", 24, columns, 0, 0))
    os.dup2(os.open("/dev/null", os.O_WRONLY), 1)
    os.execv(words[0], words)
text = b""
while True:
    try:
        part = os.read(terminal, 65536)
    except OSError:
        break
    if not part:
        break
    text += part
os.waitpid(child, 0)

# The terminal: a line that wraps is one that has more characters than there are columns while wrapping is on (ESC [ ? 7 h). One that is cut must be the
# text alone, which no terminal of 40 columns cuts.
column, wraps, line, last = 0, True, "", ""
for code, end, character in re.findall("(\x1b\\[[?0-9;]*[A-Za-z])|([\r\n])|(.)", text.decode()):
    if code in ("\x1b[?7l", "\x1b[?7h"):
        wraps = code.endswith("h")
    elif end or code.endswith(("K", "A", "B")):
        last = line if "%" in line else last
        column, line = 0, ""
    elif character:
        column = column + 1 if wraps else min(column + 1, columns)
        line += character
        if column > columns or len(line) > max(columns, 40):
            sys.exit(f"{columns} columns: a line runs over: {line}")
print(last.strip())
