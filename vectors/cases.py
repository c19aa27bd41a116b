"""What check and check-nodes share: where cases are, their files, and how a difference is told. And what the other scripts share with
them: the program that is tried, and files."""
import itertools
import json
import os
import pathlib
import sys

# why a case isn't tried, by whether those that are tried need peers
OTHERS = {False: 'they need peers: check-nodes', True: 'they need no peers: check'}


def named_program(text):
    """The program that the command line names; or the text is printed."""
    if sys.argv[1:] == ['--help']:
        print(text.strip())
        sys.exit()
    if len(sys.argv) < 2:
        sys.exit(text)
    program = os.path.abspath(sys.argv[1])
    if not os.access(program, os.X_OK) or not os.path.isfile(program):
        sys.exit(f'no program {program}\n`rt run -- --version` in crates/q3net proves and builds it, as crates/q3net/out/q3net: half an hour to an '
                 'hour where nothing was proved')
    return program


def command_line(text, with_peers):
    """The program that the command line names, those of the cases that it asks for that need peers, or none, and how many others there
    are; or the text is printed."""
    program = named_program(text)
    here = pathlib.Path(__file__).resolve().parent
    folders = [pathlib.Path(word) for word in sys.argv[2:]] or sorted(path for path in here.iterdir() if path.is_dir())
    for folder in folders:
        if not folder.is_dir():
            sys.exit(f'no folder {folder}')
    cases = [case for folder in folders for case in sorted(folder.iterdir())]
    chosen = [case for case in cases if needs_peers(case) in (with_peers, None)]
    return program, chosen, len(cases) - len(chosen)


def told(case):
    return json.loads((case / 'case.json').read_text())


def needs_peers(case):
    """Whether a case needs peers; nothing where it can't be read."""
    try:
        return 'sockets' in told(case)
    except (OSError, ValueError):
        return None


def files(folder):
    return {str(path.relative_to(folder)): path.read_bytes() for path in folder.rglob('*') if path.is_file()}


def store(folder, data):
    for name, content in data.items():
        path = folder / name
        path.parent.mkdir(parents=True, exist_ok=True)
        path.write_bytes(content)


def mark(profile):
    """The mark of a profile, which the index of a demo keeps: the sum FNV-1a of 64 bits."""
    value = 14695981039346656037
    for byte in profile:
        value = (value ^ byte) * 1099511628211 % 2 ** 64
    return value


def of_first_version(index):
    """An index that was made, without the bits of an entity's number."""
    return b'Q3INDEX1' + index[8:24] + index[25:]


def first_difference(what, wanted, got):
    """The first item of two lists that differs, if one does."""
    for number, pair in enumerate(itertools.zip_longest(wanted, got), 1):
        if pair[0] != pair[1]:
            shown = [repr(item)[:160] if item is not None else 'nothing more' for item in pair]
            yield f'{what} {number}\n  wanted {shown[0]}\n  got    {shown[1]}'
            return


def differences(case, given, status, printed, left):
    """What differs after a run: the status, what was printed, and the files that lie where it ran."""
    if status != told(case)['status']:
        yield f'status {status}, wanted {told(case)["status"]}'
    lines = [text.decode('latin-1').split('\n') for text in ((case / 'stdout').read_bytes(), printed)]
    yield from first_difference('line', *lines)
    wanted = {**given, **files(case / 'made')}
    for name in sorted(wanted.keys() | left.keys()):
        if wanted.get(name) != left.get(name):
            yield f'file {name}'


def passes(case, found):
    for difference in found:
        print(f'{case.parent.name}/{case.name}: {difference}')
    return not found


def end(answers, others, with_peers):
    """Prints how many passed, and how many weren't tried: the status."""
    passed, failed = answers.count(True), answers.count(False)
    why = f' ({OTHERS[with_peers]})' if others else ''
    print(f'{len(answers)} cases, {failed} differ, {others} not tried{why}\n{passed} passed, {failed} failed')
    return 0 if answers and not failed else 1
