"""What a script's operations are answered: by the model, and by the guest."""
import os
import subprocess
import sys

TOP = os.path.dirname(os.path.dirname(os.path.dirname(os.path.abspath(__file__))))
sys.path.insert(0, os.path.join(TOP, 'tools', 'reference'))
import cli as reference  # noqa: E402

WORDS = ('loaded stored failed refused mapped unmapped protected forked exited attached detached migrated seen evicted '
         'removed excluded added').split()


def report_of(text, command=None):
    """The report of a script's run: by the command, or by tools/reference if there is none."""
    if command is None:
        status, message, report = reference.replay(text.encode())
    else:
        done = subprocess.run(command, input=text.encode(), stdout=subprocess.PIPE, check=False)
        status, message, report = done.returncode, '', done.stdout.decode()
    if status:
        raise SystemExit(f'status {status} {message} of\n{text}')
    return report


def model_answers(text, command=None):
    """The answers in a report's history, in order and without actors. Of an `attached` the sequence is left out."""
    answers = []
    for line in report_of(text, command).split('history\n', 1)[1].splitlines():
        words = line.split()
        if len(words) > 2 and words[2] in WORDS:
            answers.append(' '.join(words[2:-1] if words[2] == 'attached' else words[2:]))
    return answers


def pieces(op):
    """How many answers an operation has, if it is not refused."""
    words = op.split()
    if words[0] in ('load', 'dload', 'store', 'dstore'):
        at = int(words[2], 16)
        count = int(words[3]) if 'load' in words[0] else len(words[3]) // 2
        return (at + count - 1) // 4096 - at // 4096 + 1
    return int(words[3]) if words[0] == 'snap' else 1


def by_op(ops, answers):
    """The answers of each operation, and those that are left over."""
    at, lists = 0, []
    for op in ops:
        is_refused = op.startswith('snap') and at < len(answers) and not answers[at].startswith('seen')
        count = 1 if is_refused else pieces(op)
        lists.append(answers[at:at + count])
        at += count
    return lists, answers[at:]


def guest_scripts(path):
    """The answers of each script in what the guest wrote."""
    found, name, lines = {}, None, []
    for line in open(path, errors='replace'):
        line = line.rstrip('\r\n')
        if line.startswith('script '):
            name, lines = line[len('script '):], []
        elif line == 'end' and name is not None:
            found[name], name = lines, None
        elif name is not None:
            lines.append(line)
    return found
