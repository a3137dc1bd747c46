"""The edits that the prover must refuse, for the tests that hold them to it.

An edit has a comment line, a line 'refused: WHERE FACT' and replacements as rt reads them, 'file:', 'old:' and 'new:'. WHERE is the function whose contract
is not met, a method by its own name, or the module of proofs/ whose law does not hold, and FACT the goal, or the law or lemma: the error that counts must be there.

That is the one which rt says of an edit, the first that is more than a name that the proofs no longer find. Where it is at an answer or a law, this is enough:
the answer is read, and does not prove its goal. Where it is at a goal without an answer, the edit is made in a copy of the repository and checked there, since
the answer may only have lost its name: then the first error of the whole log counts.
"""
import os
import re
import shutil
import subprocess
import tempfile

from sources import ROOT, read

CRATES = os.path.join(ROOT, 'crates')
JOBS = int(os.environ.get('RT_JOBS') or len(os.sched_getaffinity(0)))
REFUSED = 'refused, as it must be: '
STILL_PROVED = 'NOT REFUSED'
# what rt says of one edit
TRIED = re.compile(r'^rt: must-fail (\w+)/(\S+\.edit): (.*)$', re.M)
# what the prover says where an edit did not change a fact but what the proof can name, or does not even parse
UNFIT = re.compile(
    r'has no `|has no field|is not in scope|is private|was not admitted|only because a proof file names|only by a limit|expected an |cannot continue|→ Type 0` \(expected\)|'
    r'no such module|`rw`: no occurrence of|`rw`: no part of the goal'
)
PROOF = r'(?:\./)?proofs/(?:(?:[\w+]+/)*([\w+]+)/(?:Answers|Invariants)|(\w+))\.antt:\d+:\d+: error: `([^`]+)`:'
GOAL = r'note: (src/\S+?):(\d+):\d+: (?:it is not proved that |`search` found no proof )'


def edits_of(names=()):
    """The crate, the file's name and the text of all that stands in the folders crates/NAME/must-fail: of the crates that are named, or of all."""
    edits = []
    for crate in sorted(os.listdir(CRATES)):
        folder = os.path.join(CRATES, crate, 'must-fail')
        for name in sorted(os.listdir(folder)) if os.path.isdir(folder) and (not names or crate in names) else ():
            edits.append((crate, name, read('crates', crate, 'must-fail', name)))
    without = sorted(set(names) - {crate for crate, _, _ in edits})
    if without:
        raise SystemExit('there is no edit in ' + ', '.join('crates/%s/must-fail' % name for name in without))
    return edits


def form_fault(name, edit):
    """What is wrong with an edit's own text; None where nothing is."""
    lines = edit.split('\n')
    if not name.endswith('.edit'):
        return 'it is no .edit file'
    if not lines[0].startswith('# '):
        return 'its first line is no comment'
    if any(re.match(r'file: (?!(src|specs)/(?!.*\.\.))', line) for line in lines):
        return 'it edits another file than one of src/ or specs/'
    return None


def apply(edit, folder):
    """Makes an edit's replacements in a crate's folder. What is wrong with them, or None."""
    file = old = ''
    pairs = 0
    for line in edit.split('\n'):
        if line.startswith('file: '):
            file = os.path.join(folder, line[len('file: ') :])
        elif line.startswith('old: '):
            old = line[len('old: ') :]
        elif line.startswith('new:'):
            text = read(file) if os.path.isfile(file) else ''
            if not old or text.count(old) != 1:
                return 'the text %r does not stand once in %r' % (old, os.path.relpath(file or folder, folder))
            with open(file, 'w') as f:
                f.write(text.replace(old, re.sub('^ ', '', line[len('new:') :])))
            old, pairs = '', pairs + 1
    return None if pairs else 'it replaces nothing'


def copy_of_repository(to):
    """A copy of what rt reads of the repository but the edits, and of what earlier checks kept: what they proved by links, since a check puts a new file in the
    place of one that it does not find current."""

    def link_or_copy(file, copy):
        (os.link if file.endswith('.oantt') or '/out/rlib/' in file else shutil.copy2)(file, copy)

    shutil.copy(os.path.join(ROOT, 'crates.txt'), to)
    for crate in os.listdir(CRATES):
        for part in ('src', 'specs', 'proofs', 'out/rlib', 'out/incremental'):
            folder = os.path.join(CRATES, crate, part)
            if os.path.isdir(folder):
                shutil.copytree(folder, os.path.join(to, 'crates', crate, part), copy_function=link_or_copy)


def rt(folder, *words):
    """The exit status of rt and all that it said."""
    run = subprocess.run(['rt', *words], cwd=folder, stdout=subprocess.PIPE, stderr=subprocess.STDOUT, text=True)
    return run.returncode, run.stdout


def tried(repository, crates):
    """What rt says of each must-fail edit of these crates, by the crate and the file's name; and all that it said."""
    said = rt(repository, 'must-fail', *crates)[1]
    return {(crate, name): outcome for crate, name, outcome in TRIED.findall(said)}, said


def log_of(crate, edit):
    """What the prover says of a crate with an edit: the log, or what kept it from the prover."""
    with tempfile.TemporaryDirectory() as copy:
        copy_of_repository(copy)
        folder = os.path.join(copy, 'crates', crate)
        wrong = apply(edit, folder)
        if wrong:
            return None, wrong
        status, said = rt(folder, 'check', '--jobs', '1')
    if status == 0:
        return None, STILL_PROVED
    if status != 1 or not re.search(r'^logic=not-proved', said, re.M):
        return None, 'it did not reach the prover (exit status %d): %s' % (status, said)
    return said, None


def first_error(log):
    """The first error's block of lines."""
    block = []
    for line in log.splitlines():
        starts = ': error' in line or re.search(GOAL, line)
        if block and (starts or not line.startswith('  ')):
            break
        if block or starts:
            block.append(line)
    return '\n'.join(block)


def place(error, log):
    """Where the first error is: the function or module, and the goal or law."""
    proof = re.match(PROOF, error)
    if proof:
        return proof.group(1) or proof.group(2), proof.group(3)
    goal = re.match(GOAL + r'.*\(`([^`]+)`\)', error)
    function = goal and re.search(r'^fn \w+::(?:\w+::)*(?:\w+\+\w+::)?(\w+): (?:not proved|no proof)', log[log.index(error) :], re.M)
    return (function.group(1), goal.group(3)) if function else None


def has_no_answer(outcome):
    """Whether an edit is refused at a goal without an answer."""
    return bool(outcome.startswith(REFUSED) and re.match(GOAL, outcome[len(REFUSED) :]))


def refusal_fault(edit, outcome, log):
    """What is wrong with an edit's refusal, by what rt said of it; log gives what the prover said. None where nothing is wrong, and the first error."""
    named = [tuple(line.split()[-2:]) for line in edit.split('\n') if re.match(r'(# )?refused: \S+ \S+$', line)]
    if not outcome.startswith(REFUSED):
        return outcome or 'it was not tried', ''
    error = whole = outcome[len(REFUSED) :]
    if has_no_answer(outcome):
        whole, wrong = log()
        if wrong:
            return wrong, ''
        error = first_error(whole)
    if not error or UNFIT.search(error):
        return 'the proof no longer fits: ' + error, ''
    at = place(error, whole)
    if [at] != named:
        return 'refused at %s and not at %s: %s' % (at, named, error), ''
    return None, error.splitlines()[0][:160]


class Tally:
    """Counts what passed and what failed, and prints a line for each."""

    def __init__(self, test):
        self.test, self.passed, self.failed = test, 0, 0

    def hold(self, name, wrong, says=None):
        """A case that failed where there is something wrong; says is printed where not."""
        if wrong:
            self.failed += 1
            print('%s: FAILED: %s: %s' % (self.test, name, wrong), flush=True)
        else:
            self.passed += 1
            if says:
                print('%s: %s' % (name, says), flush=True)

    def end(self):
        print('%d passed, %d failed' % (self.passed, self.failed))
        raise SystemExit(1 if self.failed else 0)
