"""Boots the guest with an input, and gives what it answered."""
import os
import subprocess

BOOTS = 3               # a busy machine may make a boot fail
HERE = os.path.dirname(os.path.abspath(__file__))


def boot(work, kernel, text, name, seconds, cpus=2):
    """The path of the guest's answers, W/runs/NAME.out. Its input and console stand beside it."""
    folder = os.path.join(work, 'runs')
    os.makedirs(folder, exist_ok=True)
    given, told = os.path.join(folder, name + '.in'), os.path.join(folder, name + '.out')
    with open(given, 'w') as file:
        file.write(text)
    if os.path.exists(told):
        os.remove(told)
    environment = dict(os.environ, CPUS=os.environ.get('CPUS', str(cpus)))
    command = ['setpriv', '--pdeathsig', 'TERM',    # if this program is killed, boot.sh is told to end
               os.path.join(HERE, 'boot.sh'), work, kernel, given, told, str(seconds)]
    for _ in range(BOOTS):
        subprocess.run(command, env=environment, check=True)
        if os.path.exists(told) and os.path.getsize(told):
            return told
    raise SystemExit(f'the guest does not come up: see {told}.console')
