"""The graph that a picture shows: the blocks, and what the program answered about each of them."""

from __future__ import annotations

from dataclasses import dataclass, field
from typing import Dict, List, Optional, Sequence, Tuple

from zorimarl.errors import Misfit
from zorimarl.explore.scenario import GENESIS, MAKES, SENDS, Line, parents_and_carried

from .answers import Played


@dataclass(eq=False)
class Block:
    name: str
    parents: List[str]
    carried: List[str]
    standing: str = "not sent"  # or `present`, `waits`, `no room`, or the words of a refusal
    word: Optional[str] = None  # the word of the pair, as it was answered once this block was present


@dataclass
class Graph:
    """The blocks by name, in order of making, and what was answered after the last one came."""

    pair: Optional[Sequence[str]]
    blocks: Dict[str, Block] = field(default_factory=dict)
    states: Dict[str, str] = field(default_factory=dict)  # of transactions
    last_word: Optional[str] = None  # of the pair
    newly: List[Block] = field(default_factory=list)  # the blocks that became present with the last one
    fault: Optional[Tuple[Line, str]] = None  # that of the scenario, as it was answered: the line and the reason

    def present(self) -> List[Block]:
        return [block for block in self.blocks.values() if block.standing == "present"]

    def make(self, line: Line) -> None:
        parents, carried = parents_and_carried(line.words)
        name = line.words[1]
        if name in self.blocks or not self.blocks.keys() >= set(parents):
            raise Misfit(f"{line}: it has a fault, and none is answered")
        self.blocks[name] = Block(name, parents, carried)

    def send(self, line: Line, answer: List[str]) -> None:
        """What the answer to a block that is sent says of it and of those that waited for it."""
        block = self.blocks.get(line.words[1])
        if block is None:
            raise Misfit(f"{line}: it has a fault, and none is answered")
        if answer[0] == "kept" and answer[2] == "present":
            self.arrive(line, block, int(answer[3]))
        elif answer[0] == "kept":
            block.standing = "waits"
        elif block.standing not in ("present", "waits"):  # genesis stays, though it is refused when sent
            block.standing = "no room" if answer[0] == "full" else " ".join(answer)

    def arrive(self, line: Line, block: Block, count: int) -> None:
        """A block is present, and so are those that waited for it alone: as many as the answer says."""
        block.standing = "present"
        self.newly, self.states, self.last_word = [block], {}, None
        while freed := next(filter(self.is_free, self.blocks.values()), None):
            freed.standing = "present"
            self.newly.append(freed)
        if len(self.newly) != count:
            raise Misfit(f"{line}: {len(self.newly)} blocks get present with it, and the answer says {count}")

    def is_free(self, block: Block) -> bool:
        return block.standing == "waits" and all(
            self.blocks[parent].standing == "present" for parent in block.parents
        )

    def hear_vote(self, answer: List[str]) -> None:
        if self.pair and answer[1:3] == list(self.pair):
            self.last_word = answer[3]
            for block in self.newly:
                block.word = answer[3]

    def hear_report(self, answers: List[List[str]]) -> None:
        """Of the transactions that present blocks carry, a report names those that are accepted."""
        accepted = {answer[1] for answer in answers if answer[0] == "tx"}
        for block in self.present():
            for name in block.carried:
                self.states[name] = "accepted" if name in accepted else "rejected"


def take_step(graph: Graph, line: Line, answers: List[List[str]]) -> None:
    command = line.words[0]
    if command == "grant":
        graph.blocks[GENESIS].carried.append(line.words[1])
    if command in MAKES:
        graph.make(line)
    if command in SENDS:
        graph.send(line, answers[0])
    elif command == "vote":
        graph.hear_vote(answers[0])
    elif command == "state":
        graph.states[answers[0][1]] = answers[0][2]
    elif command == "report":
        graph.hear_report(answers)


def graph_of(played: Played, pair: Optional[Sequence[str]]) -> Graph:
    """The graph after all lines that were played."""
    genesis = Block(GENESIS, [], [], "present")
    graph = Graph(pair, {GENESIS: genesis}, newly=[genesis])
    for line, answers in played.steps:
        take_step(graph, line, answers)
    graph.fault = played.fault
    return graph
