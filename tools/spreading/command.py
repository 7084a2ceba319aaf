"""The words of the command line. Statuses are those of `qecode solve`, and 21 where something besides the program is in the way."""
import argparse
import os
import shutil
import signal
import sys
import tempfile

from oracle.reader import Refused
from program import NoProgram, Program, add_option, add_piece_option, piece_program
from spreading import engines, folder, outcome
from spreading.asking import asked
from spreading.certificates import NotWhole
from spreading.progress import Progress
from spreading.run import Policy, Run, Unfit
from spreading.store import InUse, OtherProblem, Store, written_whole
from spreading.tree import Tree

DONE, NOT_PROVED, OPEN, USAGE, TOO_LONG, READ_FAULT, WRITE_FAULT, OTHER, STOPPED = 0, 1, 2, 3, 6, 7, 8, 21, 130
ROUNDS = 3  # in which results that aren't believed are made anew
DESCRIPTION = """Solves one game with many processors and machines. It is cut into pieces, each of which `qecode solve`, or `qpart
solve` where that is there, goes over in a process of its own, and what they find is merged into one certificate of the whole, which is handed out only where
`qecode check` says yes to it. docs/many.md tells more.

  spread solve PROBLEM            splits, solves, merges and checks, and writes the certificate
  spread split PROBLEM FOLDER     writes pieces as files FOLDER/*.qc, for whatever runs a command for each file
  spread piece FILE.qc ...        solves such pieces, one after the other; FILE.cert stands when it is whole
  spread merge FOLDER             takes FOLDER/*.cert: writes FOLDER/whole.cert, or the pieces that are still to be solved

Statuses: 0 settled; 1 what was merged isn't believed; 2 open: pieces are left; 3 usage; 4 bad problem; 6 too long; 7 a file
can't be read; 8 can't be written; 21 another reason; 130 stopped. All but 0 and 2 say on standard error why."""


class Stop(Exception):
    """Ends the command with a status, and says why."""

    def __init__(self, status, why):
        super().__init__(why)
        self.status = status


class Words(argparse.ArgumentParser):
    def error(self, message):
        self.print_usage(sys.stderr)
        self.exit(USAGE, f"spread: {message}\n")


def within(low, high):
    def number(word):
        value = int(word)
        if not low <= value <= high:
            raise argparse.ArgumentTypeError(f"{word} isn't from {low} to {high}")
        return value

    return number


def seconds(word):
    value = float(word)
    if not value > 0:
        raise argparse.ArgumentTypeError(f"{word} isn't above 0")
    return value


def words_of(words):
    usual = Policy()
    parser = Words(prog="spread", description=DESCRIPTION, formatter_class=argparse.RawDescriptionHelpFormatter)
    commands = parser.add_subparsers(dest="command", required=True, parser_class=Words, metavar="solve | split | piece | merge")
    solve = commands.add_parser("solve", help="splits, solves, merges and checks")
    solve.add_argument("problem", metavar="PROBLEM")
    solve.add_argument("--workers", type=within(0, 4096), metavar="N", help="processes here (all processors; none where hosts are named)")
    solve.add_argument("--hosts", metavar="A,B:8", help="other machines, by ssh: each runs as many pieces as it has processors, or as a colon says")
    solve.add_argument("--ssh", default="ssh -o BatchMode=yes", metavar="WORDS", help="the command that reaches a host (%(default)s)")
    solve.add_argument("--there", metavar="PATH", help="the program's path on other machines, where it is another one")
    solve.add_argument("--there-piece", metavar="PATH", help="the path of the program for pieces there; without it, --there is for all pieces")
    solve.add_argument("--engine", choices=("processes", "dask"), default="processes")
    solve.add_argument("--address", metavar="A", help="of a dask scheduler, as tcp://HOST:8786; without it, workers are started here")
    solve.add_argument("--store", metavar="FOLDER", help="keeps results there, so that the same words go on where a run was ended")
    solve.add_argument("--out", metavar="FILE", help="the certificate's file, in place of standard output")
    solve.add_argument("--turns", type=within(1, 10_000_000), default=usual.turns, metavar="N", help="turns after which a piece is split (%(default)s)")
    solve.add_argument("--first", type=within(1, 10_000_000), default=usual.first, metavar="N", help="turns of the whole before it is split (%(default)s)")
    solve.add_argument("--patience", type=seconds, default=usual.patience, metavar="S", help="seconds after which idle workers help a piece (%(default)s)")
    solve.add_argument("--regret", type=seconds, default=usual.regret, metavar="S", help="seconds up to which a better value begins a piece anew (%(default)s)")
    solve.add_argument("--seconds", type=seconds, metavar="S", help="leaves open what isn't settled by then")
    split = commands.add_parser("split", help="writes pieces as files")
    split.add_argument("problem", metavar="PROBLEM")
    merge = commands.add_parser("merge", help="takes the pieces' certificates")
    for one in (split, merge):
        one.add_argument("folder", metavar="FOLDER")
        one.add_argument("--pieces", type=within(1, 100_000), metavar="N", help=f"how many are wanted ({folder.USUAL}; merge: as for split)")
        one.add_argument("--workers", type=within(1, 4096), metavar="N", help="processes that look where to split (all processors)")
    piece = commands.add_parser("piece", help="solves pieces that were split off")
    piece.add_argument("files", metavar="FILE.qc", nargs="+")
    piece.add_argument("--turns", type=within(1, 10_000_000), default=usual.turns, metavar="N", help="turns after which it is left open (%(default)s)")
    for one in (solve, split, merge, piece):
        one.add_argument("--quiet", action="store_true", help="tells no progress")
        add_option(one)
        add_piece_option(one)
    return parser.parse_args(words)


def processors():
    return len(os.sched_getaffinity(0))


# ---- solve


def solve(options, program, progress):
    text = problem_text(options.problem, program)
    where = options.store or tempfile.mkdtemp(prefix="spread-")
    store = Store(where, text)
    is_kept = options.store is not None
    try:
        return solved(options, program, progress, store)
    except BaseException:
        if store.has_results():
            is_kept = True
            progress.say(f"what was found is kept: the same words with --store {where} go on from it")
        raise
    finally:
        store.clean()
        store.close()
        if not is_kept:
            shutil.rmtree(where, ignore_errors=True)


def solved(options, program, progress, store):
    engine = engine_of(options, program, store, progress)
    policy = Policy(turns=options.turns, first=options.first, patience=options.patience, regret=options.regret)
    try:
        for _ in range(ROUNDS):
            run = Run(store, engine, policy, progress)
            run.go()
            believed = concluded(run.tree, store, program, progress)
            if believed:
                break
        else:
            raise Stop(NOT_PROVED, f"the certificate isn't believed, though each piece's is; it is kept as {store.path('whole.unchecked')}")
    finally:
        engine.close()
    outcome.handed_out(believed.path, options.out)
    progress.say(f"{believed.line}" + ("" if options.out is None else f": {options.out}"))
    return DONE if run.tree.root.is_settled() else OPEN


def concluded(tree, store, program, progress):
    """The certificate of the whole, as `check` believes it; None where pieces have to be solved again."""
    try:
        return outcome.conclude(tree, store, program)
    except (outcome.Disbelieved, NotWhole) as fault:
        if getattr(fault, "status", None) == TOO_LONG:
            raise Stop(TOO_LONG, f"the certificate is longer than `check` reads, so nothing is claimed; it is kept as {fault.path}") from None
        bad = outcome.bad_results(tree, store, program)
        progress.say(f"what was merged isn't believed ({fault}); results that aren't certificates of their pieces: {', '.join(bad) or 'none'}")
        if not bad:
            raise Stop(NOT_PROVED, "nothing is claimed, and all results are kept") from None
        store.forget_bounds()
        return None


def engine_of(options, program, store, progress):
    there, part = options.there or program.path, piece_program(options.piece_program)
    part_there = options.there_piece or (None if options.there else part)
    if options.engine == "dask":
        return engines.Dask(there, options.workers or processors(), store.folder, options.address, part_there)
    places = engines.there(options.hosts.split(","), there, options.ssh, part_there) if options.hosts else []
    here = options.workers if options.workers is not None else 0 if options.hosts else processors()
    if not places and not here:
        raise Stop(USAGE, "there are no workers")
    return engines.Processes(engines.here(program.path, here, part) + places, store.folder, progress.say)


def problem_text(path, program):
    """The bytes of a problem, which the program reads first: what it refuses is answered as it does."""
    status, written = program.run("print", path)
    if status:
        sys.stdout.buffer.write(written)
        sys.stdout.buffer.flush()
        raise Stop(status, f"{path} can't be read" if status == READ_FAULT else f"{path}: the program ends with status {status}")
    with open(path, "rb") as file:
        return file.read()


# ---- split, piece, merge


def split(options, program, progress):
    text = problem_text(options.problem, program)
    store = Store(options.folder, text)
    try:
        folder.want(store, options.pieces or folder.USUAL)
        return cut(options, program, progress, store, None)
    finally:
        store.close()


def merge(options, program, progress):
    if not os.path.exists(os.path.join(options.folder, "problem")):
        raise Stop(READ_FAULT, f"{options.folder} isn't a folder that `spread split` has made")
    store = Store(options.folder)
    try:
        for _ in range(ROUNDS):
            tree = Tree(store.text, has_part=piece_program(options.piece_program) is not None)
            store.replay(tree)
            taken = folder.take_answers(store, tree, progress.say)
            if options.pieces:
                folder.want(store, options.pieces)
            status = cut(options, program, progress, store, tree, taken or options.pieces)
            if status is not None:
                return status
        raise Stop(NOT_PROVED, "nothing is claimed, and all results are kept")
    finally:
        store.close()


def cut(options, program, progress, store, tree, is_split=True):
    """Splits what is left, where that is asked for, and hands out the pieces, or the whole. None where pieces have to be solved
    again first."""
    if is_split:
        part = piece_program(options.piece_program)
        engine = engines.Processes(engines.here(program.path, options.workers or processors(), part), store.folder, progress.say)
        try:
            run = folder.Cutting(store, engine, tree)
            run.go()
            tree = run.tree
        finally:
            engine.close()
    left = folder.hand_out(store, tree)
    if left and not tree.root.is_settled():
        progress.say(f"{tree.settled} pieces are settled; {left} are to be solved: {store.folder}/*.qc")
        return OPEN
    believed = concluded(tree, store, program, progress)
    if believed is None:
        return None
    progress.say(f"{believed.line}: {believed.path}")
    return DONE if tree.root.is_settled() else OPEN


def piece(options, program, _progress):
    for path in options.files:
        if not path.endswith(".qc"):
            raise Stop(USAGE, f"{path} doesn't end in .qc")
        with open(path, "rb") as file:
            is_part, words = asked(file.read(), options.turns)
        result = path.removesuffix(".qc") + ".cert"
        part = f"{result}.part{os.getpid()}"
        with open(part, "wb") as file:
            status, _ = (Program(options.piece_program, "qpart") if is_part else program).run("solve", path, *words, stdout=file)
        if status not in (DONE, OPEN):
            os.remove(part)
            raise Stop(status if status > 0 else OTHER, f"{path}: the program ends with status {status}")
        os.replace(part, result)
    return DONE


# ---- The command.

COMMANDS = {"solve": solve, "split": split, "piece": piece, "merge": merge}


def stopped(*_):
    raise KeyboardInterrupt


def main(words):
    options = words_of(words)
    progress = Progress(options.quiet, getattr(options, "seconds", None))
    signal.signal(signal.SIGTERM, stopped)
    try:
        return COMMANDS[options.command](options, Program(options.program), progress)
    except Stop as why:
        progress.say(str(why))
        return why.status
    except Unfit as why:
        progress.say(f"{why} (piece {why.piece.name()})")
        return why.status if isinstance(why.status, int) else OTHER
    except Refused as why:
        progress.say(f"the program reads this problem, and the reader of the tools doesn't: {str(why).strip()}")
    except KeyboardInterrupt:
        progress.say("stopped")
        return STOPPED
    except InUse as why:
        progress.say(f"another run is at work in {why}")
    except OtherProblem as why:
        progress.say(f"{why} was made for another problem")
    except (engines.EngineFault, NoProgram) as why:
        progress.say(str(why))
    except OSError as why:
        progress.say(f"{why.filename or 'a file'}: {why.strerror}")
        return WRITE_FAULT
    return OTHER
