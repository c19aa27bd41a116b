"""What the scripts beside this file share: profiles, and the time and the instructions of built programs."""
import os
import pathlib
import re
import shutil
import subprocess
import sys
import time

RUNS = 5
TOP = pathlib.Path(__file__).resolve().parent.parent
PROGRAM = TOP / 'crates/q3net/out/q3net'
REAL = (TOP / 'profiles/quake3.toml').read_text()
# instructions that clear or copy a run of bytes count once for each byte: none are used while they are counted
NO_REPEATS = 'glibc.cpu.x86_rep_stosb_threshold=1000000000:glibc.cpu.x86_rep_movsb_threshold=1000000000'


# how many figures are left out, by what asked for them
LEFT_OUT = []


def program(had='`rt run -- --version` in crates/q3net proves and builds it: half an hour to an hour where nothing was proved'):
    """The program that the command line names, by default the one that was built here; or the script's text is printed."""
    if sys.argv[1:] == ['--help']:
        print(sys.modules['__main__'].__doc__.strip())
        sys.exit()
    named = pathlib.Path(*sys.argv[1:2] or [PROGRAM]).resolve()
    if not named.is_file() or not os.access(named, os.X_OK):
        sys.exit(f'no program {named}\n{had}')
    return named


def own_program(folder, name, needs, words):
    """The program NAME that the command line names, or else one that is proved and built; or the script's text is printed."""
    if sys.argv[1:]:
        return program(f'without a PROGRAM bench/{name} proves and builds it, from bench/{name}.txt')
    if not shutil.which('rt'):
        sys.exit(f'no program: the command `rt`, which proves and builds bench/{name}.txt, is not installed')
    return build(folder, name, needs, words)


def build(folder, name, needs, words):
    """Proves and builds the program NAME.txt beside this file, in a repository of its own with copies of the crates that
    it stands on, and runs it once with these words: the built program."""
    crate = folder / 'crates' / name
    for need in needs:
        shutil.copytree(TOP / 'crates' / need, folder / 'crates' / need)
    (crate / 'src').mkdir(parents=True)
    shutil.copy(TOP / f'bench/{name}.txt', crate / 'src/main.rt')
    lines = [line for line in (TOP / 'crates.txt').read_text().splitlines() if line.split(':')[0] in needs]
    (folder / 'crates.txt').write_text('\n'.join([*lines, f'{name}: {" ".join(needs)}']) + '\n')
    shutil.copy(TOP / 'HANDLES', folder)
    (crate / 'profile').write_text(REAL)
    done = subprocess.run(['rt', 'run', '--', *words], cwd=crate, capture_output=True, text=True)
    if done.returncode != 0:
        sys.exit(f'rt run: status {done.returncode}\n{done.stdout}{done.stderr}')
    return crate / 'out' / name


def each_round(measure, rounds, words):
    """What a round takes: a difference of two runs, so what a run takes once isn't in it."""
    few, many = (measure([*words, str(times)]) for times in (rounds, 11 * rounds))
    return (many - few) / (10 * rounds)


def bits(byte):
    """The eight bits of a byte, least first."""
    return ''.join(str(byte >> place & 1) for place in range(8))


def profile(words, player):
    """A profile with these code words and these widths of a player's fields."""
    code = ', '.join(f'"{word}"' for word in words)
    return (f'protocol = 68\nserver_ring = 4096\nparse_ring = 8192\n'
            f'entity = [0, 8, -16]\nplayer = {player}\ncode = [{code}]\n')


def entering(lines):
    """The client joins; then there is a map with what these lines hand in, and the client enters it at the time 10. Four
    datagrams are made by then."""
    return ['client 0 1567508447 5000 0 10.0.0.1:27960', 'map 1 77', *lines, 'serve 0', 'deliver 1', 'send 0', 'deliver 2',
            'serve 0', 'deliver 3', 'move 0 10 0 0 0 0 0 0 0 0', 'send 0', 'deliver 4']


def replay(program, folder, profile, lines):
    """Writes a profile and a script into the folder: the command that replays these lines."""
    (folder / 'profile').write_text(profile)
    (folder / 'script').write_text('\n'.join(lines) + '\n')
    return [program, 'replay', folder / 'profile', folder / 'script']


def run(command, folder):
    """Runs a command in the folder: the seconds, the peak memory in KB, and what standard error took."""
    with open(folder / 'report', 'wb') as out, open(folder / 'told', 'w+b') as told:
        start = time.perf_counter()
        process = subprocess.Popen(command, cwd=folder, stdin=subprocess.DEVNULL, stdout=out, stderr=told)
        _, status, usage = os.wait4(process.pid, 0)
        seconds = time.perf_counter() - start
        told.seek(0)
        text = told.read().decode()
    process.returncode = os.waitstatus_to_exitcode(status)
    if process.returncode != 0:
        sys.exit(f'{command}: status {process.returncode}\n{text}')
    return seconds, usage.ru_maxrss, text


def best(command, folder):
    """Runs a command several times: the least time in seconds, the report's bytes, and the peak memory in KB."""
    runs = [run(command, folder) for _ in range(RUNS)]
    return min(seconds for seconds, _, _ in runs), (folder / 'report').stat().st_size, max(peak for _, peak, _ in runs)


def counts_instructions(figures):
    """Whether the tool that counts instructions, and allocations, is installed; else so many figures are left out."""
    installed = shutil.which('valgrind') is not None
    if not installed:
        LEFT_OUT.append(figures)
    return installed


def left_out():
    return f'no instructions: valgrind is not installed, so {sum(LEFT_OUT)} figures are left out'


def end():
    """Says how many figures were left out, if any."""
    if LEFT_OUT:
        print(left_out())


def instructions(command, folder, within=None):
    """How many instructions a command takes, or how many of them within a function."""
    counting = ['env', f'GLIBC_TUNABLES={NO_REPEATS}', 'valgrind', '--tool=callgrind', '--callgrind-out-file=/dev/null',
                *([f'--toggle-collect=*{within}*'] if within else [])]
    _, _, told = run([*counting, *command], folder)
    return int(re.search(r'Collected : (\d+)', told).group(1))


def allocations(command, folder):
    """How many allocations a command makes; a block that is resized counts once more."""
    _, _, told = run(['valgrind', '--tool=memcheck', '--leak-check=no', *command], folder)
    return int(re.search(r'total heap usage: ([\d,]+) allocs', told).group(1).replace(',', ''))
