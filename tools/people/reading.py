"""A checked answer, with all that the tools read of it."""
from people.answers import checked, checker_words, first_told, sure
from people.ending import read_bytes
from people.problem import Problem
from people.telling import Teller
from people.walk import read_tree


class Answer:
    """A problem and a certificate that `check` has confirmed; one that it hasn't is refused.

    The certificate's tree and what tells of it are None where the certificate has more bytes than `most`. `is_played` says
    whether `qecode play` has played a play of this tree, and `is_told` whether `qtell first` has told its first move.
    """

    def __init__(self, program, problem, certificate, most):
        self.program, self.certificate_path = program, certificate
        self.stated = checked(program, problem, certificate)
        self.problem, self.certificate = Problem(program, problem), read_bytes(certificate)
        self.tree = read_tree(self.problem.game, self.certificate) if len(self.certificate) <= most else None
        self.teller = Teller(self.problem, self.tree) if self.tree else None
        self.is_played = self.tree is not None and self.teller.confirm_by_play(program, certificate)
        self.is_told = self.is_played and self.teller.confirm_first(first_told(problem, certificate))

    def is_true(self):
        return self.stated.startswith("true")

    def checker(self):
        return checker_words(self.program)

    def sure(self):
        """What is sure at the worst ties of later owners, in words; None where it isn't asked for or no tie can matter."""
        return sure(self.program, self.problem, self.stated) if self.is_true() and self.problem.has_followers() else None
