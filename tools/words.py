"""What the tools have in common: --help, a file or standard input, and the program that they run."""
import difflib, os, signal, subprocess, sys

TOP = os.path.dirname(os.path.dirname(os.path.abspath(__file__)))


def tool():
    return os.path.basename(sys.argv[0])


def begin(about):
    """Answers --help and -h with what the tool says of itself."""
    if {'--help', '-h'} & set(sys.argv[1:]):
        end_with_reader()
        print(about.strip())
        sys.exit(0)


def end_with_reader():
    """If the reader of what is written goes away, the tool ends without a word, as `| head` expects."""
    signal.signal(signal.SIGPIPE, signal.SIG_DFL)


def refuse(said):
    """The words are wrong: status 2."""
    print(f"{tool()}: {said}{'' if said.endswith('?') else ';'} --help has the words", file=sys.stderr)
    sys.exit(2)


def nearest(word, known):
    """Asks whether one of the known words was meant, if one is near."""
    found = difflib.get_close_matches(word, list(known), 1, 0.6)
    return f'; did you mean `{found[0]}`?' if found else ''


def data_of(words, options=()):
    """The bytes of the one file that the words name, or of standard input. The tool has these options."""
    for word in words:
        if word.startswith('-') and word != '-':
            refuse(f'there is no `{word}`{nearest(word, [*options, "--help"])}')
    if len(words) > 1:
        refuse(f'`{words[1]}` is a word too many')
    if words and words[0] != '-':
        try:
            with open(words[0], 'rb') as file:
                return file.read()
        except OSError as error:
            print(f'{tool()}: {words[0]}: {error.strerror}', file=sys.stderr)
            sys.exit(4)
    if sys.stdin.isatty():
        print(f'{tool()}: reading from the terminal; Ctrl-D ends the text', file=sys.stderr)
    return sys.stdin.buffer.read()


def need(program):
    """Whether the proved program is there, which this tool does not build: status 2 if not."""
    if not os.access(program, os.X_OK):
        print(f'{tool()}: there is no {program}; ./hmmrun.sh, ./hmmraces.sh, ./hmmview.sh and the gate build proved '
              'programs', file=sys.stderr)
        sys.exit(2)


def ready(name='hmmrun'):
    """The command of the program: the proved one if it is built, or else the unproved one. Nothing is proved for it."""
    asked = subprocess.run([os.path.join(TOP, name + '.sh'), '--ready', '--path'], stdout=subprocess.PIPE, text=True)
    if asked.returncode != 0:
        sys.exit(asked.returncode)
    return [asked.stdout.strip()]
