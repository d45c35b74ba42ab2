"""The chosen runs: name, what it is for, its rules, the program's words, its input, and the file that FILE names."""

from __future__ import annotations

from chosen_bytes import JOURNAL, SMALL
from chosen_ledgers import HEAD, TIE
from spell import A, B, G, GENESIS, block, blocks_feed, feed, frame, journal, lock, paid, sha, spent, tx

# The file: its bytes, or None where there is none. The last word says which end of the outside fails.
Run = tuple[str, str, str, list[str], bytes, "bytes | None", str]


def lines(text: str) -> bytes:
    return "".join(f"{line}\n" for line in text.split(" / ")).encode()


def play(name: str, why: str, rules: str, text: str | bytes, word: str = "play") -> Run:
    return name, why, rules, [word], text if isinstance(text, bytes) else lines(text), None, ""


def names(count: int) -> str:
    return " / ".join(f"tx t{n} spends g.0 pays {n + 1} to w" for n in range(count))


LONG = "w" * 64
OUTS = " ".join(f"{n} to w" for n in range(1, 17))
FILLED = " / ".join(f"tx t{n} spends {' '.join(f'g{n}.{i} with {LONG}' for i in range(16))} pays {' '.join(['1 to w'] * 16)}" for n in range(30))
FILLING = " / ".join(f"grant g{n} {OUTS} / grant h{n} {n + 1} to v" for n in range(30)) + " / " + FILLED
FAULTS: list[tuple[str, str, str, str | bytes]] = [
    ("unknown", "A vote on names that aren't there.", "line/unknown code/2", "vote A B"),
    ("unknown-self", "A name isn't known on the line that makes it.", "line/unknown", "block A on A"),
    ("unknown-kind", "A transaction is no parent.", "line/unknown", "grant g 1 to a / block A on g"),
    ("unknown-state", "A block has no state.", "line/unknown", "block A on G / state A"),
    ("unknown-carried", "A block isn't carried.", "line/unknown", "block A on G / block B on A carries A"),
    ("unknown-index", "An INDEX beyond the outputs.", "line/unknown", "grant g 1 to a / tx p spends g.1 pays 1 to b"),
    ("unknown-index-256", "An INDEX above 255.", "line/unknown", "grant g 1 to a / tx p spends g.256 pays 1 to b"),
    ("unknown-index-zero", "An INDEX with a leading zero.", "line/unknown", "grant g 1 to a / tx p spends g.00 pays 1 to b"),
    ("unknown-index-huge", "An INDEX of forty-five digits.", "line/unknown", f"grant g 1 to a / tx p spends g.{'9' * 45} pays 1 to b"),
    ("unknown-dot", "An OUT without a dot.", "line/unknown", "grant g 1 to a / tx p spends g pays 1 to b"),
    ("unknown-two-dots", "An OUT with two dots.", "line/unknown", "grant g 1 to a / tx p spends g.0.0 pays 1 to b"),
    ("unknown-block-out", "An OUT names no block.", "line/unknown", "block A on G / tx p spends A.0 pays 1 to b"),
    ("unknown-send", "What is sent was made.", "line/unknown", "send A"),
    ("byte", "A byte of 0 within a line.", "line/byte", b"block A on G\nvote A \0B\n"),
    ("byte-127", "A byte of 127.", "line/byte", b"vote G G\x7f\n"),
    ("byte-utf-8", "A letter beyond ASCII.", "line/byte", "balance \u00e9".encode()),
    ("byte-skipped", "What is skipped may have any bytes.", "line/byte text/words", b"# \0\xff\x7f\nvote G G\n"),
    ("byte-carriage", "A byte 13 that isn't at the end.", "line/byte text/lines", b"vote G\rG\n"),
    ("byte-two-carriages", "Of two bytes 13 at the end one is dropped.", "line/byte text/lines", b"vote G G\r\r\n"),
    ("byte-before-command", "A faulty byte is found before an unknown first word.", "line/order line/byte", b"nothing \x01\n"),
    ("command", "An unknown first word.", "line/command", "votes A B"),
    ("command-case", "Commands are in lower case.", "line/command", "Vote G G"),
    ("command-nodes", "In `play` the word `nodes` is no command.", "line/command", "nodes 2"),
    ("command-before-form", "An unknown first word is found before anything else.", "line/order line/command", "x on on"),
    ("late-bits", "`bits` behind a block.", "line/late", "block A on G / bits 0"),
    ("late-bits-twice", "`bits` twice.", "line/late", "bits 0 / bits 0"),
    ("late-bits-grant", "`bits` behind a grant.", "line/late", "grant g 1 to a / bits 0"),
    ("late-profile", "`profile` behind a block.", "line/late", "block A on G / profile 2"),
    ("late-profile-bits", "`profile` behind `bits`.", "line/late", "bits 0 / profile 2"),
    ("late-profile-twice", "`profile` twice.", "line/late", "profile 2 / profile 2"),
    ("late-grant", "`grant` behind a question.", "line/late", "grant g 1 to a / report / grant h 2 to b"),
    ("late-skipped", "Skipped lines make nothing late.", "line/late text/words", "# first /  / profile 2 / # second / bits 1 / # third / grant g 1 to a / state g"),
    ("late-before-form", "`late` is found before `form`.", "line/order line/late", "report / bits"),
    ("form-before-name", "`form` is found before the words' own reasons.", "line/order line/form", "grant on 0 of x"),
    ("form-vote", "A vote on one block.", "line/form", "vote G"),
    ("form-report", "A report takes no word.", "line/form", "report G"),
    ("form-block", "No parents.", "line/form", "block A on"),
    ("form-key", "Another word at the place of `on`.", "line/form", "block A in G"),
    ("form-carries", "Nothing behind `carries`.", "line/form text/left-to-right", "block A on G carries"),
    ("form-grant", "A PAY that is cut.", "line/form", "grant g 1 to"),
    ("form-grant-key", "Another word at the place of `to`.", "line/form", "grant g 1 for a"),
    ("form-pays", "No PAY behind `pays`.", "line/form", "grant g 1 to a / tx p spends g.0 pays"),
    ("form-no-pays", "No `pays` at all.", "line/form", "grant g 1 to a / tx p spends g.0 x y"),
    ("form-with", "Nothing behind `with`.", "line/form", "grant g 1 to a / tx p spends g.0 with"),
    ("form-no-spend", "`pays` at the first SPEND's place, and no room behind.", "line/form text/left-to-right", "tx p spends pays 1"),
    ("form-pays-first", "`pays` at the first SPEND's place ends nothing.", "line/form text/left-to-right", "grant g 1 to a / tx p spends pays 1 to b"),
    ("name-key", "A key word is no name.", "line/name", "block carries on G"),
    ("name-long", "A name of 33 letters.", "line/name", f"block {'n' * 33} on G"),
    ("name-32", "A name of 32 letters.", "line/name text/labels", f"block {'n' * 32} on G"),
    ("name-sign", "A dot in a name.", "line/name", "block A.1 on G"),
    ("name-before-unknown", "The name stands before the parents.", "line/order line/name", "block A+ on B"),
    ("taken", "A name that a transaction has.", "line/taken", "grant A 1 to a / block A on G"),
    ("taken-g", "`G` is genesis.", "line/taken", "grant G 1 to a"),
    ("taken-self", "A block's own earlier name.", "line/taken", "block A on G / make A on G"),
    ("repeat-parent", "A parent twice.", "line/repeat", "block A on G / block B on A G A"),
    ("repeat-carried", "A transaction twice.", "line/repeat", HEAD + " / block A on G carries p q p"),
    ("repeat-out", "An output twice.", "line/repeat", "grant g 1 to a / tx p spends g.0 g.0 pays 1 to b"),
    ("repeat-before-word", "An OUT that repeats is found before the WORD behind it.", "line/order line/repeat",
     f"grant g 1 to a / tx p spends g.0 g.0 with {'w' * 65} pays 1 to b"),
    ("number-bits", "65 bits.", "line/number", "bits 65"),
    ("number-bits-zero", "A leading zero.", "line/number", "bits 01"),
    ("number-sign", "A sign.", "line/number", "bits +1"),
    ("number-profile", "Profile 3.", "line/number", "profile 3"),
    ("number-profile-0", "Profile 0.", "line/number", "profile 0"),
    ("number-amount-0", "An amount of 0.", "line/number", "grant g 0 to a"),
    ("number-amount", "An amount of 2^63.", "line/number", "grant g 9223372036854775808 to a"),
    ("number-huge", "An amount of fifty digits.", "line/number", f"grant g {'1' * 50} to a"),
    ("number-sum", "Amounts that come to 2^63.", "line/number", "grant g 9223372036854775807 to a 1 to b"),
    ("number-sum-late", "The sum is judged behind the other words.", "line/order line/word", f"grant g 9223372036854775807 to a 1 to {'w' * 65}"),
    ("word", "A WORD of 65 bytes.", "line/word", "balance " + "w" * 65),
    ("word-64", "A WORD of 64 bytes.", "line/word", f"balance {LONG}"),
    ("word-with", "A WORD of 65 bytes behind `with`.", "line/word", f"grant g 1 to a / tx p spends g.0 with {'w' * 65} pays 1 to b"),
    ("word-order", "Words go from left to right: the number of the second PAY behind the WORD of the first.", "line/order line/word", f"grant g 1 to {'w' * 65} 0 to a"),
    ("many-outputs", "17 outputs.", "line/many", f"grant g {OUTS} 17 to w"),
    ("many-outputs-16", "16 outputs.", "line/many", f"grant g {OUTS} / balance w"),
    ("many-inputs", "17 inputs.", "line/many", f"grant g {OUTS} / grant h 1 to w / tx p spends {' '.join(f'g.{n}' for n in range(16))} h.0 pays 1 to b"),
    ("many-grants", "257 grants.", "line/many", " / ".join(f"grant g{n} {n + 1} to a" for n in range(257))),
    ("many-grants-256", "256 grants.", "line/many", " / ".join(f"grant g{n} {n + 1} to a" for n in range(256)) + " / balance a"),
    ("many-genesis", "A grant with which genesis is longer than 65,536 bytes.", "line/many", " / ".join(f"grant g{n} {OUTS[:-4]}{n + 16} to w" for n in range(110))),
    ("many-parents", "65 parents.", "line/many", " / ".join(f"make b{n} on G" for n in range(65)) + f" / make A on {' '.join(f'b{n}' for n in range(65))}"),
    ("many-parents-64", "64 parents.", "line/many", " / ".join(f"block b{n} on G" for n in range(64)) + f" / block A on {' '.join(f'b{n}' for n in range(64))}"),
    ("many-carried", "257 transactions.", "line/many", f"grant g 1 to a / {names(257)} / make A on G carries {' '.join(f't{n}' for n in range(257))}"),
    ("many-block", "A block of more than 65,536 bytes.", "line/many", FILLING + f" / make A on G carries {' '.join(f't{n}' for n in range(30))}"),
    ("many-names", "The 4,097th name, `G` included.", "line/many", " / ".join(f"make b{n} on G" for n in range(4096))),
    ("many-names-4096", "4,096 names.", "line/many", " / ".join(f"make b{n} on G" for n in range(4095)) + " / send b4094"),
    ("many-before-sum", "`many` is found before the sum.", "line/order line/many", f"grant g {OUTS} 9223372036854775807 to w"),
    ("many-before-twin", "`many` is found before `twin`.", "line/order line/many", f"grant g {OUTS} / grant h {OUTS} 17 to w"),
    ("twin", "A grant like an earlier one.", "line/twin", "grant g 1 to a / grant h 1 to a"),
    ("twin-tx", "A transaction whose inputs stand otherwise is the same one.", "line/twin text/bytes",
     "grant g 1 to a 2 to b / tx p spends g.0 g.1 pays 3 to c / tx q spends g.1 with b g.0 pays 3 to c"),
    ("sum-before-twin", "The sum is found before a twin could be.", "line/order line/number", "grant g 1 to a / grant h 1 to a 9223372036854775807 to b"),
    ("work", "No nonce meets 64 bits.", "line/work", "bits 64 / block A on G"),
    ("stops", "The lines before are played, and the fault stands last.", "text/stops", "block A on G / vote A G / block B on X / vote A G"),
    ("faulty-labels", "A faulty line labels nothing.", "text/stops text/labels", "grant g 1 to a / report / tx p spends g.0 pays 1 to zed 0 to a"),
]

SCENARIOS: list[Run] = [
    *[play(*each) for each in FAULTS],
    play("empty", "An empty scenario has no answers.", "text/lines code/0", b""),
    play("no-line-end", "The last line may lack its end.", "text/lines", b"block A on G\nvote A G"),
    play("carriage", "Lines may end with bytes 13 and 10, and the text with a byte 13.", "text/lines", b"block A on G\r\n\r\nvote A G\r"),
    play("blank-lines", "Skipped lines count.", "text/lines text/words line/unknown", b"\n \t\n# vote\n  #x\nvote A B\n"),
    play("tabs", "Spaces and tabs separate words.", "text/words", b"\t block\tA  on \t G \nvote A\tG\n"),
    play("hash-within", "`#` within a line begins no comment.", "text/words line/name", b"block A#1 on G\n"),
    play("genesis", "Genesis may be asked for, and is the same as itself.", "answer/vote", "vote G G / pairs / report"),
    play("absent-same", "One block that isn't present is absent, also beside itself.", "answer/vote", "make A on G / vote A A / vote G A / send A / vote A A"),
    play("send-again", "A block may be sent again, and is known.", "text/make arrival/known", "make A on G / send A / send A / block B on A / send A"),
    play("send-genesis", "Genesis, sent as a block, is refused.", "text/make refused/parent-count arrival/spelling", "send G"),
    play("late-block", "A block that waits counts in the line of the block that it waited for.", "arrival/waiting arrival/present",
         "make A on G / make B on A / make C on B / make D on A C / send D / send C / send B / report / send A / report"),
    play("refused-carried", "Two payments of one grant in one block: it is refused, and its child waits.", "text/make refused/same-outpoint arrival/waiting",
         HEAD + " / block A on G carries p q / block B on A / state p / vote A B"),
    play("grant-carried", "A grant in another block is refused.", "refused/grant", "grant g 1 to a / block A on G carries g"),
    play("labels", "A lock has the first word that stands for it, and lists go in the order of naming.", "text/labels answer/report answer/pairs",
         "grant z 5 to zed 6 to amy / grant a 7 to bob / block Y on G / block X on G / balance new / report / pairs"),
    play("labels-later", "Labels of lines below count in the order of a list above.", "text/labels",
         "grant g 1 to b / report / balance a / tx p spends g.0 pays 1 to a / block A on G carries p / report"),
    play("label-with", "A WORD behind `with` labels nothing.", "text/labels text/bytes",
         "grant g 1 to a / tx p spends g.0 with other pays 1 to b / balance other / block A on G carries p / report"),
    play("with-pays", "The word behind `with` is a WORD, `pays` too.", "text/left-to-right",
         "grant g 1 to pays / tx p spends g.0 with pays pays 1 to to / block A on G carries p / balance to"),
    play("pays-first", "`pays` at the place of the first SPEND is an OUT, and unknown.", "text/left-to-right line/unknown",
         "grant g 1 to a / tx p spends pays pays 1 to b"),
    play("with-later", "`with` at a later SPEND's place is an OUT, and unknown.", "text/left-to-right line/unknown",
         "grant g 1 to a / tx p spends g.0 with a with pays 1 to b"),
    play("carries-parent", "The first word behind `on` is a parent whatever it is.", "text/left-to-right line/unknown", "block A on carries"),
    play("carries-twice", "A second `carries` is a transaction's name.", "text/left-to-right line/unknown", HEAD + " / block A on G carries p carries q"),
    play("word-key", "A WORD may be a key word.", "text/left-to-right", "grant g 1 to to 2 to pays / balance to / balance pays"),
    play("inputs-sorted", "Inputs ascend whatever their order in the line.", "text/bytes",
         "grant g 1 to a 2 to b / grant h 4 to c / tx p spends h.0 g.1 g.0 pays 7 to d / block A on G carries p / balance d", "build"),
    play("parents-sorted", "Parents ascend by id whatever their order in the line.", "text/bytes text/build",
         "block A on G / block B on G / block C on G / block D on C B A", "build"),
    play("work-8", "Each block has the least nonce that meets eight bits.", "text/bytes id/work text/build", "bits 8 / block A on G / block B on A G", "build"),
    play("work-16", "So with 16 bits.", "text/bytes id/work", "bits 16 / block A on G", "build"),
    play("salts", "A block's salt is its number among all that were made, sent or not.", "text/bytes text/make",
         "make A on G / make B on G / block C on B / send A", "build"),
    play("build-all", "A frame for each message, and the profile's version.", "text/build feed/profile",
         "profile 2 / bits 1 / grant g 9 to a / block A on G / vote A G / state g / balance a / pairs / report / send A", "build"),
    play("build-empty", "The feed of an empty scenario has 39 bytes.", "text/build", b"", "build"),
    play("build-fault", "Of a scenario with a fault the line alone.", "text/build text/stops", "block A on G / vote A B", "build"),
    play("too-long", "16,777,216 line ends are too long.", "text/too-long code/11", b"\n" * 16_777_216),
    play("too-long-build", "So they are for `build`.", "text/too-long", b"\n" * 16_777_216, "build"),
    play("just-long", "One less is read to its end.", "text/too-long", b"\n" * 16_777_215),
    play("profile-2", "A tie of a voter is settled by the salt in profile 2.", "vote/tie-2 feed/profile",
         "profile 2 / block A on G / block B on G / vote A B / block C on A B / vote A B"),
    play("full", "Behind 512 kept blocks there is room for none; known ones are known.", "arrival/full arrival/known",
         " / ".join(f"block b{n} on G" for n in range(1, 514)) + " / send b1 / send b513 / make bad on b1 / send G / send bad"),
    play("full-waiting", "Blocks that wait take room, too.", "arrival/full arrival/waiting",
         "make A on G / " + " / ".join(f"block b{n} on A" for n in range(1, 513)) + " / send A / report"),
    play("row-9", "A double spend that is decided.", "accept/before answer/report",
         TIE + " / state p / state q / balance alice / block C on A / state p / state q / report"),
    ("make-3", "Three blocks in a row, and nothing is drawn.", "numbers/make", ["make", "3", "0", "1"], b"", None, ""),
    ("make-2", "The first two draws of seed 1.", "numbers/make", ["make", "2", "1", "2"], b"", None, ""),
    ("make-8", "Two neighbours of eight carry payments.", "numbers/make", ["make", "8", "0", "1"], b"", None, ""),
    ("make-0", "No blocks, no text.", "numbers/make", ["make", "0", "18446744073709551615", "16"], b"", None, ""),
    ("make-30", "Thirty blocks over all 64 bits of the seed.", "numbers/make", ["make", "30", "18446744073709551615", "16"], b"", None, ""),
    ("drill-8", "The summary of eight blocks in a row.", "numbers/drill", ["drill", "8", "0", "1"], b"", None, ""),
    ("drill-24", "The summary of 24 blocks.", "numbers/drill", ["drill", "24", "5", "3"], b"", None, ""),
]

TWO_NODES = "make A on G / make B on A / nodes 2"
SCRIPTS: list[tuple[str, str, str, str | bytes]] = [
    ("row-33", "Two blocks go from one node to the other, and once more.", "gossip/have gossip/want gossip/blocks gossip/again gossip/report",
     TWO_NODES + " / give 0 A / give 0 B / tell 0 1 / deliver 0 / deliver 1 / deliver 2 / deliver 2 / report 1"),
    ("row-34", "A node that has the child asks for the parent; a packet that wasn't sent ends the script.", "gossip/packet gossip/want",
     TWO_NODES + " / give 1 B / give 0 A / tell 0 1 / deliver 0 / deliver 1 / deliver 2 / deliver 9"),
    ("have-empty", "A node that keeps nothing tells so, and nothing is wanted.", "gossip/have gossip/idle", TWO_NODES + " / tell 0 1 / deliver 0 / deliver 0"),
    ("self", "A node may tell itself.", "gossip/have gossip/idle", TWO_NODES + " / give 0 A / tell 0 0 / deliver 0"),
    ("want-nothing", "A node that keeps nothing of what is wanted sends nothing.", "gossip/want gossip/idle",
     "make A on G / nodes 3 / give 0 A / tell 0 1 / deliver 0 / tell 0 2 / deliver 2 / deliver 3 / report 2"),
    ("late-packet", "A packet arrives late, and asks for what is missing then.", "gossip/again gossip/want",
     TWO_NODES + " / give 0 A / tell 0 1 / give 1 A / give 0 B / deliver 0 / tell 0 1 / deliver 1"),
    ("refused", "A refused block that is given is answered, and not kept.", "gossip/blocks arrival/spelling",
     HEAD + " / make A on G carries p q / nodes 1 / give 0 A / report 0"),
    ("profile", "The nodes have the scenario's profile and work.", "gossip/report feed/profile",
     "profile 2 / bits 2 / " + HEAD + " / make A on G carries p / make B on G carries q / make C on A B / nodes 1 / give 0 A / give 0 B / give 0 C / report 0"),
    ("messages-unplayed", "What the scenario asks and sends isn't played.", "gossip/scenario", "block A on G / vote A G / nodes 1 / report 0"),
    ("have-order", "Ids go in the order in which they are kept.", "gossip/have gossip/blocks",
     TWO_NODES + " / give 0 B / give 0 A / tell 0 1 / deliver 0 / deliver 1 / deliver 2"),
    ("partition", "Two sides with rival payments join.", "gossip/blocks accept/before",
     HEAD + " / make A on G carries p / make B on G carries q / make C on A / nodes 2 / give 0 A / give 0 C / give 1 B "
     "/ report 0 / report 1 / tell 0 1 / deliver 0 / deliver 1 "
     "/ deliver 2 / report 1 / tell 1 0 / deliver 3 / deliver 4 / deliver 5 / report 0"),
    ("nodes-16", "16 nodes are the most.", "gossip/number", "nodes 16 / report 15"),
    ("nodes-17", "17 are too many.", "gossip/number gossip/scenario", "make A on G / nodes 17 / report 0"),
    ("nodes-0", "So is none.", "gossip/number", "nodes 0"),
    ("nodes-form", "Nothing behind `nodes`.", "gossip/form gossip/scenario", "nodes"),
    ("nodes-missing", "No line `nodes`: the fault is at one more than the lines.", "gossip/nodes", "block A on G / report"),
    ("nodes-missing-empty", "So it is in an empty text.", "gossip/nodes", b""),
    ("nodes-skipped", "A skipped line is none.", "gossip/nodes", b"# nodes 2\n\n"),
    ("nodes-twice", "A second line `nodes` is no command.", "gossip/command", "nodes 2 / nodes 2"),
    ("scenario-fault", "A fault of the scenario stands alone.", "gossip/scenario line/unknown", "block A on B / nodes 2 / report 0"),
    ("scenario-line", "A scenario's line in the script is no command.", "gossip/command", "nodes 2 / report 0 / make A on G"),
    ("byte", "A faulty byte in the script.", "gossip/byte", b"nodes 2\nreport 0\nreport \x01\n"),
    ("byte-nodes", "A faulty byte in the line `nodes`.", "gossip/byte", b"nodes 2\x7f\n"),
    ("form", "A word is missing.", "gossip/form", "nodes 2 / tell 0"),
    ("form-too-many", "A word too many.", "gossip/form", "nodes 2 / report 0 1"),
    ("number", "A number with a leading zero.", "gossip/number", "nodes 2 / report 00"),
    ("number-word", "A word in place of a number.", "gossip/number", "nodes 2 / deliver x"),
    ("number-before-node", "The reasons go by their order over the whole line.", "gossip/number", "nodes 2 / tell 99 x"),
    ("node", "A node that isn't there.", "gossip/node", "nodes 2 / report 2"),
    ("node-huge", "A node of fifty digits isn't there.", "gossip/node", f"nodes 2 / report {'9' * 50}"),
    ("node-before-unknown", "So with a node and a name.", "gossip/node", "nodes 2 / give 2 Nope"),
    ("unknown", "A block that wasn't made.", "gossip/unknown", "nodes 2 / give 0 A"),
    ("unknown-genesis", "Genesis isn't made.", "gossip/unknown", "nodes 2 / give 0 G"),
    ("unknown-tx", "A transaction is no block.", "gossip/unknown", "grant g 1 to a / nodes 2 / give 0 g"),
    ("packet-huge", "A packet of fifty digits wasn't sent.", "gossip/packet", f"nodes 2 / tell 0 1 / deliver {'9' * 50}"),
    ("packet-65536", "So is one beyond 65,535.", "gossip/packet", "nodes 2 / tell 0 1 / deliver 65536"),
    ("many-given", "128 blocks are given, and another.", "gossip/many", "make A on G / nodes 2" + " / give 0 A" * 129),
    ("many-packets", "4,096 packets are sent, and another.", "gossip/many", "nodes 1" + " / tell 0 0" * 4097),
    ("many-not-sent", "Behind 4,096 packets one that sends nothing is played.", "gossip/many gossip/idle", "nodes 1" + " / tell 0 0" * 4096 + " / deliver 4095"),
    ("reads-on", "A line that can't be read ends the script, those before it are played.", "gossip/command",
     "make A on G / nodes 1 / give 0 A / give 0 A / stop / give 0 A"),
    ("too-long", "16,777,216 bytes are too long.", "text/too-long", b"\n" * 16_777_216),
]
GOSSIP: list[Run] = [play(*each, "gossip") for each in SCRIPTS]


def spend(name: str, why: str, rules: str, text: bytes, words: str) -> Run:
    return name, why, rules, ["spend", *words.split(" ")], text, None, ""


def fed(*grants: bytes, more: tuple[bytes, ...] = ()) -> bytes:
    return blocks_feed(block(0, [], grants), *more)


ALICE = fed(tx([], [paid(100, lock("alice"))]), tx([], [paid(50, lock("alice"))]))
SAME = fed(tx([], [paid(5, lock("a")), paid(5, lock("b")), paid(5, lock("a"))]), tx([], [paid(5, lock("a")), paid(6, lock("c"))]))
MANY = fed(tx([], [paid(n + 1, lock("a")) for n in range(16)]), tx([], [paid(100, lock("a"))]))
LARGE = fed(tx([], [paid(2**63 - 2, lock("alice"))]), tx([], [paid(2**63 - 3, lock("alice"))]))
GRANTED = block(0, [], [tx([], [paid(100, lock("alice"))])])
PAID = tx([spent(sha(tx([], [paid(100, lock("alice"))])), 0, b"alice")], [paid(60, lock("bob")), paid(40, lock("alice"))])
TAKEN = tx([spent(sha(tx([], [paid(100, lock("alice"))])), 0, b"alice")], [paid(100, lock("carol"))])
PAID_BLOCK, TAKEN_BLOCK = block(1, [sha(GRANTED)], [PAID]), block(2, [sha(GRANTED)], [TAKEN])
UPON = block(3, [sha(PAID_BLOCK)])
TIED = blocks_feed(GRANTED, PAID_BLOCK, TAKEN_BLOCK)
DECIDED = blocks_feed(GRANTED, PAID_BLOCK, TAKEN_BLOCK, UPON)

SPENDS: list[Run] = [
    spend("exact", "One candidate is just the amount: one output.", "spend/order spend/rest", ALICE, "100 to bob from alice"),
    spend("rest", "Two candidates, and the rest goes back.", "spend/rest spend/inputs", ALICE, "120 to bob from alice"),
    spend("all", "Both candidates are just the amount.", "spend/rest", ALICE, "150 to bob from alice"),
    spend("poor", "Both don't reach it.", "spend/poor code/14", ALICE, "151 to bob from alice"),
    spend("poor-0", "A word that opens nothing.", "spend/poor", ALICE, "1 to bob from carol"),
    spend("small", "The largest first, though the smaller one would do.", "spend/order spend/rest", ALICE, "1 to bob from alice"),
    spend("same-amounts", "Of one amount by outpoints.", "spend/order", SAME, "14 to z from a b"),
    spend("words", "Each input has the word of its lock; the rest goes to the first word.", "spend/inputs spend/rest", SAME, "16 to z from b c a"),
    spend("word-unused", "The first word takes the rest, though it opens nothing.", "spend/rest", ALICE, "120 to bob from none alice"),
    spend("to-own", "The receiver may be one of the words.", "spend/rest", ALICE, "120 to alice from alice"),
    spend("words-to-from", "`to` and `from` may be words.", "spend/inputs words/usage", fed(tx([], [paid(9, lock("from"))])), "4 to to from from to"),
    spend("sixteen", "16 of 17 candidates reach it.", "spend/poor spend/order", MANY, "235 to b from a"),
    spend("seventeen", "17 candidates would reach it, and 16 don't.", "spend/poor", MANY, "236 to b from a"),
    spend("large", "What is chosen comes to 2^63 or more.", "spend/large code/15", LARGE, "9223372036854775807 to bob from alice"),
    spend("large-below", "Two candidates that come to 2^63 - 1 are no more than can be paid.", "spend/large",
          fed(tx([], [paid(2**62, lock("a")), paid(2**62 - 1, lock("a"))])), f"{2**62 + 1} to b from a"),
    spend("large-reached", "Two candidates that come to 2^63.", "spend/large",
          fed(tx([], [paid(2**62, lock("a"))]), tx([], [paid(2**62, lock("a")), paid(1, lock("b"))])),
          f"{2**62 + 1} to b from a"),
    spend("large-one", "One candidate below 2^63 is enough.", "spend/large", LARGE, "9223372036854775806 to bob from alice"),
    spend("rejected", "What is rejected isn't spent: the grant still is.", "spend/accepted", TIED, "100 to dave from alice bob carol"),
    spend("accepted", "What is accepted is spent.", "spend/accepted", DECIDED, "60 to dave from bob alice"),
    spend("word-64", "A word of 64 bytes.", "words/usage", ALICE, f"100 to {LONG} from alice"),
    spend("word-utf-8", "A word's bytes are those of UTF-8.", "spend/inputs", fed(tx([], [paid(9, lock("\u00e9"))])), "9 to bob from \u00e9"),
    spend("malformed", "A feed's fault stands alone.", "feed/kind code/2", feed(GRANTED, b"Z"), "1 to bob from alice"),
    spend("truncated", "So where it is truncated.", "feed/truncated code/3", ALICE[:-1], "1 to bob from alice"),
]

P, Q = f"tx:{sha(PAID).hex()}", f"tx:{sha(TAKEN).hex()}"
BOBS, ALICES = f"lock:{lock('bob').hex()}", f"lock:{lock('alice').hex()}"
PAIR = f"pair:{sha(PAID_BLOCK).hex()},{sha(TAKEN_BLOCK).hex()}"
PAIR_BACK = f"pair:{sha(TAKEN_BLOCK).hex()},{sha(PAID_BLOCK).hex()}"


def watch(name: str, why: str, rules: str, text: bytes, *items: str) -> Run:
    return name, why, rules, ["watch", *items], text, None, ""


WATCHES: list[Run] = [
    watch("states", "Payments change as blocks come.", "watch/changes watch/held", DECIDED, P, Q),
    watch("balances", "Balances change.", "watch/changes watch/held", DECIDED, BOBS, ALICES),
    watch("votes", "The word on two blocks changes.", "watch/changes watch/held", DECIDED, PAIR, PAIR_BACK),
    watch("order", "Items go in their order, not by kind.", "watch/changes", DECIDED, PAIR, ALICES, Q, P),
    watch("nothing", "A feed without blocks changes nothing.", "watch/held", SMALL, f"pair:{G.hex()},{G.hex()}", P),
    watch("counted", "Refused and known blocks count.", "watch/held", blocks_feed(GRANTED, b"", PAID_BLOCK, PAID_BLOCK, TAKEN_BLOCK), P, PAIR),
    watch("fault", "A fault of the feed stands last.", "watch/fault feed/truncated", DECIDED[:-1], P),
    watch("fault-kind", "So where it is malformed.", "watch/fault feed/kind", feed(GRANTED, frame(b"B", PAID_BLOCK), b"Z"), P),
    watch("head", "A fault of the head stands alone.", "watch/fault", b"SPCTRF03", P),
    watch("upper", "Ids are compared and written in lower case.", "words/ids watch/held", SMALL, P[:3] + P[3:].upper()),
    watch("questions", "Questions are answered, and change nothing.", "watch/changes", feed(GRANTED, frame(b"R"), frame(b"B", PAID_BLOCK), frame(b"R"), frame(b"E")), P),
]

AH, BH, GH = sha(A).hex(), sha(B).hex(), G.hex()
PAIR_FEED = blocks_feed(GENESIS, A, B)
CERTIFIES: list[Run] = [
    ("tie", "The certificate of a tie has 219 bytes.", "cert/certify", ["certify", AH, BH], PAIR_FEED, None, ""),
    ("chain", "That of genesis and a block.", "cert/certify", ["certify", GH, AH], PAIR_FEED, None, ""),
    ("upper", "Ids in upper case are the same.", "cert/certify words/ids", ["certify", AH.upper(), BH], PAIR_FEED, None, ""),
    ("worlds", "A world for each block with both in its past, ascending.", "cert/certify",
     ["certify", AH, BH], blocks_feed(GENESIS, A, B, block(3, sorted([sha(A), sha(B)])), block(4, sorted([sha(A), sha(B)])), profile=2), None, ""),
    ("presence", "Blocks stand in the order in which they became present.", "cert/certify",
     ["certify", AH, BH], blocks_feed(GENESIS, block(3, sorted([sha(A), sha(B)])), B, A), None, ""),
    ("waiting-left-out", "What waits isn't in it.", "cert/certify", ["certify", AH, BH], blocks_feed(GENESIS, block(3, [sha(block(9, [G]))]), A, B), None, ""),
    ("same", "One block has no pair.", "cert/no-pair code/12", ["certify", AH, AH], PAIR_FEED, None, ""),
    ("absent", "A block that isn't present has none.", "cert/no-pair", ["certify", AH, BH], blocks_feed(GENESIS, A), None, ""),
    ("truncated", "A feed's fault stands alone.", "feed/truncated", ["certify", AH, BH], PAIR_FEED[:-1], None, ""),
]


def keep(name: str, why: str, rules: str, words: str, given: bytes, disk: bytes | None, outside: str = "") -> Run:
    return name, why, rules, words.split(" "), given, disk, outside


KEPT = blocks_feed(GENESIS, A, B)
OTHER = block(1, [])
NODES: list[Run] = [
    keep("new", "A journal is made, with a record for each block that is kept.", "node/records journal/spelled", "node FILE", KEPT, None),
    keep("empty", "An empty file takes a journal.", "node/records", "node FILE", KEPT, b""),
    keep("again", "The same feed again: all is known, and the file stays.", "node/found arrival/known", "node FILE", KEPT, JOURNAL),
    keep("goes-on", "A new block is recorded behind those that were found.", "node/found node/records",
         "node FILE", feed(GENESIS, frame(b"B", block(3, [sha(A)])), frame(b"P"), frame(b"E")), JOURNAL),
    keep("goes-on-over-rest", "Bytes behind the closed gate are written over, and the file isn't made shorter.", "node/records journal/rest",
         "node FILE", KEPT, journal(GENESIS, A) + b"\xa5" * 80),
    keep("kept-only", "Refused and known blocks and questions aren't recorded.", "node/records",
         "node FILE", feed(GENESIS, frame(b"B", b""), frame(b"B", A), frame(b"B", A), frame(b"R"), frame(b"B", B), frame(b"E")), None),
    keep("waiting", "A block that waits is recorded, in its order.", "node/records arrival/waiting", "node FILE", blocks_feed(GENESIS, block(3, [sha(A)]), A), None),
    keep("cut", "A feed that is cut leaves what was answered.", "node/records feed/truncated", "node FILE", KEPT[:-6], None),
    keep("profile-2", "A journal of the feed's profile.", "journal/profile", "node FILE", blocks_feed(GENESIS, A, profile=2), None),
    keep("other-bits", "A journal of other work.", "node/other-chain code/8", "node FILE", feed(GENESIS, frame(b"E"), bits=1), JOURNAL),
    keep("other-genesis", "A journal of another genesis.", "node/other-chain", "node FILE", blocks_feed(OTHER), JOURNAL),
    keep("other-profile", "A journal of another profile.", "node/other-chain", "node FILE", feed(GENESIS, frame(b"E"), profile=2), JOURNAL),
    keep("other-fresh", "`--fresh` makes no journal over one of another chain.", "node/fresh node/other-chain", "node --fresh FILE", blocks_feed(OTHER), JOURNAL),
    keep("not-journal", "Other bytes are left as they are.", "journal/none code/7", "node FILE", KEPT, b"hello\n"),
    keep("fresh", "`--fresh` makes a journal over other bytes, and cuts nothing.", "node/fresh", "node --fresh FILE", blocks_feed(GENESIS, A), b"hello\n" * 40),
    keep("fresh-behind", "The word may stand behind the file.", "node/fresh", "node FILE --fresh", blocks_feed(GENESIS, A), b"hello\n"),
    keep("fresh-set", "Over an open gate, too.", "node/fresh", "node --fresh FILE", blocks_feed(GENESIS), b"\xa5" * 60),
    keep("fresh-found", "`--fresh` discards no journal.", "node/fresh node/found", "node --fresh FILE", KEPT, JOURNAL),
    keep("damaged", "A damaged journal is left as it is.", "journal/damaged code/10", "node FILE", KEPT, JOURNAL[:-1]),
    keep("damaged-fresh", "`--fresh`, too, leaves a damaged journal.", "node/fresh journal/damaged", "node --fresh FILE", KEPT, JOURNAL[:-1]),
    keep("damaged-before-feed", "Damage is found before the feed is read.", "node/order", "node FILE", b"", JOURNAL[:-1]),
    keep("not-journal-before-feed", "So is a file that is no journal.", "node/order", "node FILE", b"nothing", b"hello\n"),
    keep("head-before-chain", "A fault of the head is found before the chain.", "node/order", "node FILE", feed(OTHER)[:-1], JOURNAL),
    keep("head-no-file", "With a faulty head nothing is made in an empty file.", "node/order", "node FILE", feed(A), b""),
    keep("chain-before-messages", "Another chain is found before a message's fault.", "node/order node/other-chain", "node FILE", feed(OTHER, b"Z"), JOURNAL),
    keep("show-empty", "An empty file shows no journal.", "show journal/none", "show FILE", b"", b""),
    keep("show-none", "A file that isn't there isn't made.", "show code/6", "show FILE", b"", None),
    keep("export-none", "So for `export`.", "export code/6", "export FILE 1", b"", None),
    keep("export-2", "A journal's blocks in the other profile.", "export", "export FILE 2", b"", JOURNAL),
    keep("export-back", "And of profile 2 in profile 1.", "export", "export FILE 1", b"", journal(GENESIS, A, profile=2)),
    keep("export-empty", "An empty file holds none.", "export journal/none", "export FILE 1", b"", b""),
    keep("export-damaged", "A damaged journal isn't exported.", "export journal/damaged", "export FILE 1", b"", JOURNAL[:-1]),
    keep("folder", "A folder is no journal's file.", "code/6", "show FILE", b"", None, "folder"),
]

USAGES = [
    "", "help", "-h", "--version x", "play play", "node", "node FILE FILE", "node --fresh", "node --fresh --fresh FILE", "node -f", "show", "show -f",
    "export FILE", "export FILE 3", "export FILE 01", "make", "make 512 0 1", "make 03 0 1", "make 3 18446744073709551616 1", "make 3 0 0", "make 3 0 17",
    "make 3 -1 1", "drill 3 0", "drill 3 0 1 1", "replay x", f"certify {AH}", f"certify {AH} {BH[:-1]}", f"certify {AH} {BH[:-1]}g", f"certify {AH} {BH}0",
    "check x", "gossip x", "spend 1 to b", "spend 0 to b from a", "spend 9223372036854775808 to b from a", "spend 01 to b from a", "spend 1 to b from a a",
    "spend 1 to b from", "spend 1 to -b from a", "spend 1 to b from -a", "spend 1 for b from a", f"spend 1 to {'w' * 65} from a",
    f"spend 1 to {chr(233) * 33} from a", "spend 1 to b from " + " ".join("abcdefghijklmnopq"), "watch", f"watch {P} {P}", f"watch {P} tx:{P[3:].upper()}",
    f"watch {P}0", f"watch lock:{P}", f"watch pair:{AH}", f"watch pair:{AH},{BH},{GH}", f"watch pair:{AH}:{BH}", f"watch tx:{AH},{BH}", f"watch block:{AH}",
    "watch " + " ".join(f"tx:{n:064x}" for n in range(65)), "Play", "--", "play --fresh",
]

COMMANDS: list[Run] = [
    *[(f"usage-{at}", f"`{text[:40]}{'..' if len(text) > 40 else ''}` is no command." if text else "No words are no command.", "words/usage code/1",
       text.split(" ") if text else [], b"", None, "") for at, text in enumerate(USAGES)],
    ("usage-empty-word", "An empty word is no file.", "words/usage", ["show", ""], b"", None, ""),
    ("items-64", "64 items are the most.", "words/usage", ["watch", *[f"tx:{n:064x}" for n in range(64)]], SMALL, None, ""),
    ("pair-both-ways", "A pair and the same turned round differ, and a pair of one block is one.", "words/ids",
     ["watch", f"pair:{AH},{BH}", f"pair:{BH},{AH}", f"pair:{AH},{AH}"], SMALL, None, ""),
    ("words-16", "16 words are the most.", "words/usage", ["spend", "1", "to", "b", "from", *"abcdefghijklmnop"], SMALL, None, ""),
    ("seed-largest", "The largest seed and width.", "words/usage numbers/make", ["make", "20", "18446744073709551615", "1"], b"", None, ""),
    ("make-unread", "What stands on the input of `make` isn't read.", "code/0", ["make", "1", "0", "1"], b"anything", None, ""),
    ("closed-input-play", "A closed input is a read that fails; nothing is written.", "code/4", ["play"], b"", None, "closed-input"),
    ("closed-input-replay", "So for a feed.", "code/4", ["replay"], b"", None, "closed-input"),
    ("closed-input-check", "So for a certificate.", "code/4", ["check"], b"", None, "closed-input"),
    ("closed-output-play", "A closed output is a write that fails.", "code/5", ["play"], b"vote G G\n", None, "closed-output"),
    ("closed-output-make", "So for a command without input.", "code/5", ["make", "3", "0", "1"], b"", None, "closed-output"),
    ("nothing-written", "Where nothing is to be written a closed output isn't noticed.", "code/0", ["play"], b"", None, "closed-output"),
]
