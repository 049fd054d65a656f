"""Judges transcripts of `cvwatch serve` and `cvwatch push` in this process, as check-transcript does."""

import importlib.machinery
import importlib.util
import os
import sys

import runs

sys.dont_write_bytecode = True


def load_judge():
    path = os.path.join(runs.TOP, "dev", "check-transcript")
    loader = importlib.machinery.SourceFileLoader("check_transcript", path)
    module = importlib.util.module_from_spec(importlib.util.spec_from_loader(loader.name, loader))
    loader.exec_module(module)
    return module


judge = load_judge()


def lines_of(output, is_whole):
    """The lines of an output, of which the last one may be cut off."""
    return judge.Output(output if is_whole else output[: output.rfind(b"\n") + 1])


def judge_rounds(judged, rounds, is_whole, is_resumed=False):
    """Lets a judge go through its lines, of which the first one may say what was resumed; those of an output that is not whole may end anywhere."""
    try:
        if is_resumed:
            judged.resumed()
        judged.judge(rounds)
    except judge.Illegal:
        if is_whole or judged.output.tag is not None:
            raise


class Session:
    """The input of a session, its workers, and the folder `layers` with its layers."""

    def __init__(self, data, workers, layers):
        self.rounds, self.workers, self.layers = judge.rounds_of(data), workers, layers
        self.known = {}

    def fault(self, output, is_whole=True):
        """Why an output is not a legal transcript, or if it need not be whole, not a prefix of one; None if it is."""
        if (output, is_whole) not in self.known:
            self.known[output, is_whole] = self.find_fault(output, is_whole)
        return self.known[output, is_whole]

    def find_fault(self, output, is_whole):
        try:
            judge_rounds(judge.Judge(lines_of(output, is_whole), self.workers, judge.Machine(self.layers, False)), self.rounds, is_whole)
        except judge.Illegal as error:
            return str(error)
        return None


class PushSession(Session):
    """The same of a session of `push`, whose folder `hook` had no file before it."""

    def fault(self, output, is_whole=True, files=None):
        """Why an output is not a legal transcript, or if it need not be whole, not a prefix of one, or why these are not the files after it, by their
        numbers; None if all is right."""
        outbox = judge.Outbox()
        try:
            judge_rounds(judge.Judge(lines_of(output, is_whole), self.workers, judge.Machine(self.layers, False), 0, outbox), self.rounds, is_whole)
            outbox.compare_files(files or {})
        except judge.Illegal as error:
            return str(error)
        return None
