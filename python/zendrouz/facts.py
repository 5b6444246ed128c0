"""What the core reads in a text: the facts of its board and of its signals, as `comedi_facts` gives them."""
from __future__ import annotations

from typing import Dict, List, Union

from .jobs import SECONDS, JobLike, play, text_of
from .programs import find
from .refusals import Refused
from .texts import Board, Job, PathLike, Signals, read_file


class Facts:
    """The facts of a text: the words of each, by its key."""

    def __init__(self, answer: str) -> None:
        self._words: Dict[str, List[List[str]]] = {}
        for line in answer.splitlines():
            key, *words = line.split()
            self._words.setdefault(key, []).append(words)

    def all(self, key: str) -> List[List[str]]:
        """The words of each fact with a key, in the order of the facts."""
        return self._words.get(key, [])

    @property
    def greatest_horizon(self) -> int:
        """The greatest horizon that the signals of such a text may have, in nanoseconds."""
        return int(self.all("greatest_horizon")[0][0])


def facts_of(text: Union[Board, JobLike]) -> Facts:
    """The facts of a text: a board, a board with signals, or a whole job. Refused if the core refuses it."""
    asked = str(text) if isinstance(text, Board) else text_of(text)
    return Facts(play(find("comedi_facts"), "describe", asked, SECONDS))


def head_of(board: Union[Board, PathLike], signals: Union[Signals, str, None] = None) -> str:
    """The head of a job: the board, its signals, and the line `session`.

    `board` is a `Board`, a text, or the path of a file. A text may have signals, which count if no others are given,
    and a session, which doesn't count. Without any signals the horizon is the greatest, and all levels are 0.
    """
    if isinstance(board, Board) or isinstance(board, str) and "\n" in board:
        text = str(board)
    else:
        text = read_file(board)
    return str(Job(Board.parse(text), _own_signals(text) if signals is None else signals))


def _own_signals(text: str) -> Union[Signals, str]:
    """The signals of a text, or, if it has none, silence up to the greatest horizon. A text that is refused has any horizon."""
    own = str(Signals.parse(text))
    if own:
        return own
    try:
        return Signals(facts_of(text).greatest_horizon)
    except Refused:
        return Signals(0)
