"""The chosen graphs and ledgers: name, what it is for, its rules, and lines.

A graph's line is `NAME[=SALT[/NONCE]] on PARENTS`; where no salt stands, it is the block's number. Blocks arrive in the
order of the lines, or in that of a last line `arrive NAMES`. A ledger is a scenario without questions."""

from __future__ import annotations

Chosen = tuple[str, str, str, str]

CYCLE = "A on G / B on G / C on G / X1 on A / Y1 on X1 B / X2 on B / Y2 on X2 C / X3 on C / Y3 on X3 A"

GRAPHS: list[Chosen] = [
    ("pair", "Two blocks side by side are in a tie.", "vote/x vote/y vote/neither vote/sum answer/vote", "A on G / B on G"),
    ("decided", "A third block on one of them decides, and genesis follows.", "vote/only vote/neither vote/sum", "A on G / B on G / C on A"),
    ("turned", "Two more on the other one turn it round.", "vote/only vote/neither vote/sum", "A on G / B on G / C on A / D on B / E on B"),
    ("chain", "An ancestor comes before its descendants.", "vote/ancestors vote/x vote/y", "A on G / B on A / C on B"),
    ("joined", "A block on both finds their tie: profile 1 keeps it, profile 2 votes for the smaller salt.", "vote/both vote/tie-1 vote/tie-2",
     "A on G / B on G / C on A B"),
    ("joined-by-salt", "The smaller salt is that of the block that came later.", "vote/both vote/tie-1 vote/tie-2", "A=2 on G / B=1 on G / C=3 on A B"),
    ("joined-by-large-salt", "Salts are numbers of 64 bits, and not signed ones.", "vote/tie-2", "A=18446744073709551615 on G / B=9223372036854775807 on G / C on A B"),
    ("joined-by-id", "At equal salts the id settles it.", "vote/tie-id", "A=7/0 on G / B=7/1 on G / C=7/2 on A B"),
    ("joined-by-id-other", "At equal salts the id settles it, not the nonce and not the arrival.", "vote/tie-id", "A=7/3 on G / B=7/0 on G / C=7/4 on A B"),
    ("cycle", "Each of three blocks comes before the next, and the last before the first.", "vote/cycle", CYCLE),
    ("late", "Children before their parents: what waits has no vote.", "arrival/waiting arrival/present", "A on G / B on G / C on A / D on C B / arrive D C B A"),
    ("late-part", "One of two missing parents comes, and then the other.", "arrival/waiting", "A on G / B on G / C on A B / D on C / arrive D C A B"),
    ("never", "A block whose parent never comes waits for good.", "arrival/waiting", "A on G / B on G / C on A / D on B / arrive C B D"),
    ("other-order", "The blocks of `turned` in another order give the same words at the end.", "arrival/order",
     "A on G / B on G / C on A / D on B / E on B / arrive E B D C A"),
    ("past-only", "A voter with both in its past keeps to its own past, though the others turn.", "vote/both",
     "A on G / B on G / C on A / X on B C / D on B / E on B / F on B / H on B"),
    ("past-tie", "A voter's tie stays its own, though all of them are decided.", "vote/both vote/tie-1", "A on G / B on G / X on A B / D on B / E on B"),
    ("beside", "A block beside the pair, with nothing on top, has no vote.", "vote/neither", "A on G / B on G / N on G / C on A"),
    ("beside-with-future", "One with blocks on top votes as they do together.", "vote/neither", "A on G / B on G / N on G / C on A N / D on B N / E on N / F on A N"),
    ("sign-not-sum", "A voter has one vote, however large the sum behind it is.", "vote/neither vote/sum",
     "A on G / B on G / N on G / C on A N / D on A N / E on A N / M on G / F on B M / H on B M / K on B"),
    ("parent-and-ancestor", "A parent may be an ancestor of another parent.", "vote/ancestors", "A on G / B on G A / C on G A B / D on A"),
    ("wide", "Five tips, and a block on all of them.", "vote/both vote/tie-1 vote/tie-2", "A on G / B on G / C on G / D on G / E on G / J on A B C D E"),
    ("ladder", "Ties in pasts of pasts, each settled or kept by itself.", "vote/both vote/tie-1 vote/tie-2",
     "A on G / B on G / C on A B / D on A B / E on C D / F on C D / H on E F"),
    ("ladder-by-salt", "The same with salts that fall.", "vote/both vote/tie-2", "A=9 on G / B=8 on G / C=7 on A B / D=6 on A B / E=5 on C D / F=4 on C D / H=3 on E F"),
    ("two-chains", "Two chains with a link across.", "vote/both vote/only", "A1 on G / B1 on G / A2 on A1 / B2 on B1 / A3 on A2 B1 / B3 on B2 / A4 on A3 / B4 on B3 A1"),
    ("drawn-a", "Nine blocks as drawn.", "vote/both vote/neither vote/sum",
     "A on G / B on G / C on G A / D on B C / E on A B / F on D E / H on C E / I on F / J on H D"),
    ("drawn-b", "Nine blocks as drawn, with salts as drawn.", "vote/both vote/tie-2",
     "A=50 on G / B=3 on G / C=77 on G / D=12 on A B / E=12/9 on B C / F=5 on A C / H=1 on D E / I=60 on E F / J=2 on H I"),
]

HEAD = "grant g 100 to alice / tx p spends g.0 pays 100 to bob / tx q spends g.0 pays 100 to carol"
PAIR = HEAD + " / block A on G carries p"
TIE = PAIR + " / block B on G carries q"

LEDGERS: list[Chosen] = [
    ("grants", "Grants are accepted before any block comes.", "accept/genesis balance/unspent", "grant g 5 to a 7 to b / grant h 1 to a / block A on G"),
    ("tie", "Two spends of one output side by side are both rejected.", "accept/before answer/tx answer/balance", TIE),
    ("decided", "A block on one of them decides for it.", "accept/before balance/unspent", TIE + " / block C on A"),
    ("turned", "What was accepted is rejected again, with what stands on it.", "accept/turned accept/inputs",
     TIE + " / tx r spends p.0 pays 100 to dave / block C on A carries r / block D on B / block E on B"),
    ("past", "A spend above an accepted rival is rejected, whatever the votes.", "accept/past", PAIR + " / block F on A carries q / block H on F / block I on F"),
    ("past-of-both", "Above two rejected rivals a third carrier is accepted.", "accept/past accept/any", TIE + " / block H on A B carries q"),
    ("twice", "A payment in two blocks side by side counts once.", "balance/once accept/any", PAIR + " / block B on G carries p"),
    ("twice-in-line", "A payment in a block and in one above it counts once.", "balance/once accept/any", PAIR + " / block B on A carries p"),
    ("unsound-preimage", "A spend with a word that doesn't open the lock hinders nothing.", "accept/preimage accept/unsound",
     "grant g 100 to alice / tx p spends g.0 pays 100 to bob / tx e spends g.0 with eve pays 100 to eve / block A on G carries p / block B on G carries e"),
    ("unsound-worth", "A spend of more than its inputs hinders nothing.", "accept/worth accept/unsound",
     "grant g 100 to alice / tx p spends g.0 pays 100 to bob / tx e spends g.0 pays 101 to eve / block A on G carries p / block B on G carries e"),
    ("unsound-past", "A faulty spend in the past hinders nothing.", "accept/unsound accept/past",
     "grant g 100 to alice / tx e spends g.0 pays 101 to eve / tx p spends g.0 pays 100 to bob / block A on G carries e / block B on A carries p"),
    ("output-beside", "An output that a block beside carries isn't in the past.", "accept/output",
     "grant g 100 to alice / tx p spends g.0 pays 100 to bob / tx r spends p.0 pays 100 to dave "
     "/ block A on G carries p / block B on G carries r / block C on A B carries r"),
    ("output-same-block", "An output that the same block carries isn't in the past.", "accept/output",
     "grant g 100 to alice / tx p spends g.0 pays 100 to bob / tx r spends p.0 pays 100 to dave / block A on G carries p r / block B on A carries r"),
    ("burnt", "What the inputs are worth beyond the outputs is lost.", "accept/worth balance/unspent",
     "grant g 100 to alice / tx p spends g.0 pays 60 to bob 30 to alice / block A on G carries p"),
    ("inputs-rejected", "A payment whose input is rejected is rejected, though its block comes first.", "accept/inputs",
     TIE + " / tx r spends p.0 pays 100 to dave / block C on A B carries r"),
    ("input-carrier-in-past", "The carrier that was accepted has to stand in the past of the spender.", "accept/inputs",
     HEAD + " / tx r spends p.0 pays 100 to dave / block A on G carries p / block B on G carries q "
     "/ block C on A carries r / block D on B / block E on B / block F on E carries p"),
    ("two-inputs", "One of two inputs has a rival that comes first.", "accept/before",
     "grant g 100 to alice / grant h 50 to anna / tx p spends g.0 h.0 pays 150 to bob / tx q spends h.0 pays 50 to carol "
     "/ block A on G carries p / block B on G carries q / block C on B"),
    ("three-way", "Of three spends the first has to come before both others.", "accept/before", HEAD + " / tx s spends g.0 pays 100 to sam "
     "/ block A on G carries p / block B on G carries q / block C on G carries s / block D on A / block E on A / block F on B"),
    ("cycle", "Three spends in blocks that come before each other in a circle: none is accepted.", "accept/before vote/cycle",
     HEAD + " / tx s spends g.0 pays 100 to sam / block A on G carries p / block B on G carries q / block C on G carries s / block X1 on A / block Y1 on X1 B "
     "/ block X2 on B / block Y2 on X2 C / block X3 on C / block Y3 on X3 A"),
    ("joined", "In profile 1 a block on both leaves their tie; in profile 2 it settles it.", "accept/before vote/tie-1 vote/tie-2", TIE + " / block C on A B"),
    ("rejected-rival", "A rival that is itself rejected, beside the block, still has to come later.", "accept/before accept/unsound",
     HEAD + " / tx s spends g.0 pays 100 to sam / block A on G carries p / block B on G carries q / block C on B carries s / block D on A"),
    ("outputs-of-one", "Outputs of one transaction are spent each by itself.", "balance/unspent",
     "grant g 10 to a 20 to b 30 to a / tx p spends g.1 pays 20 to c / tx q spends g.2 g.0 pays 40 to d / block A on G carries p / block B on A carries q"),
    ("preimages-of-one-lock", "One word opens each output of its lock.", "accept/preimage text/bytes",
     "grant g 10 to a 20 to a / tx p spends g.1 with a g.0 with a pays 30 to b / block A on G carries p"),
    ("waits", "A payment in a block that waits is absent.", "answer/tx arrival/waiting",
     "grant g 100 to alice / tx p spends g.0 pays 100 to bob / make A on G / make B on A carries p / send B / send A"),
    ("many-grants", "Balances under one lock from several transactions.", "balance/unspent",
     "grant g 1 to a / grant h 2 to a / grant i 3 to a / tx p spends h.0 pays 2 to b / block A on G carries p"),
    ("large", "A balance beyond 2^64 is told exactly.", "balance/large",
     "grant g 9223372036854775807 to a / grant h 9223372036854775806 to a / grant i 9223372036854775805 to a / block A on G"),
    ("grant-word-of-another", "A payment to the lock that it spends.", "balance/unspent",
     "grant g 100 to a / tx p spends g.0 pays 40 to b 60 to a / block A on G carries p / block B on G"),
]
