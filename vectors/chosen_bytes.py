"""The chosen bytes of ids, transactions, blocks, feeds, journals and certificates: name, what it is for, its rules, bytes."""

from __future__ import annotations

from spell import A, B, G, GENESIS, block, cert, feed, frame, journal, lock, mined, paid, record, sha, spent, tx, u

Chosen = tuple[str, str, str, bytes]

LOW, HIGH = bytes(31) + b"\1", b"\xff" * 32
ONE = tx([spent(LOW, 0, b"w")], [paid(1)])
GRANT = tx([], [paid(100)])
GRANTS = block(0, [], [GRANT])
WORD = sha(b"abc").hex().encode()

IDS: list[Chosen] = [
    ("lower", "64 digits in lower case are the id of their bytes.", "id/text id/sha256", WORD),
    ("upper", "Digits in upper case spell the same id.", "id/text words/ids", WORD.upper()),
    ("empty", "A text of no bytes has an even length, and not 64.", "id/length", b""),
    ("odd-63", "63 digits are an odd number.", "id/odd", WORD[:63]),
    ("odd-before-digit", "65 bytes are odd, whatever they are.", "id/odd", b"z" * 65),
    ("even-62", "62 digits are even and not 64.", "id/length", WORD[:62]),
    ("even-66", "66 bytes that are no digits have the wrong length first.", "id/length", b"z" * 66),
    ("digit-4", "The fifth digit is a `g`.", "id/digit", WORD[:4] + b"g" + WORD[5:]),
    ("digit-first-of-two", "Of two bad digits the first one is told.", "id/digit", WORD[:10] + b":" + WORD[11:63] + b"x"),
    ("digit-last", "The last digit is a blank.", "id/digit", WORD[:63] + b" "),
]

TRANSACTIONS: list[Chosen] = [
    ("grant", "A grant of 100 to the lock of `abc`, 42 bytes.", "tx/spelled id/sha256", GRANT),
    ("one-input", "An input with a preimage of one byte, and an output of 1.", "tx/spelled", ONE),
    ("sixteen", "16 inputs of one transaction and 16 outputs are the most.", "tx/InputCount tx/OutputCount",
     tx([spent(LOW, n, b"w") for n in range(16)], [paid(n + 1, lock(str(n))) for n in range(16)])),
    ("seventeen-inputs", "17 inputs are too many, seen before any is read.", "tx/InputCount refused/tx-input-count", tx([], [paid(1)], 17)),
    ("inputs-255", "A count of 255 is no negative number.", "tx/InputCount", b"\xff"),
    ("order-of-places", "Two outputs of one transaction, by their places.", "tx/InputOrder", tx([spent(LOW, 1, b"w"), spent(LOW, 2, b"w")], [paid(1)])),
    ("order-of-ids", "A higher id with a lower place comes behind.", "tx/InputOrder", tx([spent(LOW, 255, b"w"), spent(HIGH, 0, b"w")], [paid(1)])),
    ("same-outpoint", "One outpoint twice doesn't ascend.", "tx/InputOrder refused/tx-input-order", tx([spent(LOW, 1, b"w"), spent(LOW, 1, b"v")], [paid(1)])),
    ("places-descend", "The places of one transaction descend.", "tx/InputOrder", tx([spent(LOW, 2, b"w"), spent(LOW, 1, b"w")], [paid(1)])),
    ("ids-descend", "Ids descend though places ascend.", "tx/InputOrder", tx([spent(HIGH, 0, b"w"), spent(LOW, 1, b"w")], [paid(1)])),
    ("ids-by-first-byte", "Ids are compared from their first byte, not the last.", "tx/InputOrder",
     tx([spent(b"\1" + bytes(31), 0, b"w"), spent(bytes(31) + b"\2", 0, b"w")], [paid(1)])),
    ("preimage-0", "A preimage of no bytes.", "tx/PreimageLength refused/tx-preimage", tx([spent(LOW, 0, b"")], [paid(1)])),
    ("preimage-64", "A preimage of 64 bytes is the longest.", "tx/PreimageLength", tx([spent(LOW, 0, b"w" * 64)], [paid(1)])),
    ("preimage-65", "A preimage of 65 bytes.", "tx/PreimageLength", tx([spent(LOW, 0, b"w" * 65)], [paid(1)])),
    ("outputs-0", "No output.", "tx/OutputCount refused/tx-output-count", tx([spent(LOW, 0, b"w")], [])),
    ("outputs-17", "17 outputs, seen before any is read.", "tx/OutputCount", tx([spent(LOW, 0, b"w")], [], None, 17)),
    ("amount-0", "An amount of 0.", "tx/Amount refused/tx-amount", tx([spent(LOW, 0, b"w")], [paid(0)])),
    ("amount-largest", "2^63 - 1 is the largest amount.", "tx/Sum", tx([spent(LOW, 0, b"w")], [paid(2**63 - 1)])),
    ("amount-2-63", "2^63 alone is beyond the sum.", "tx/Sum refused/tx-sum", tx([spent(LOW, 0, b"w")], [paid(2**63)])),
    ("amount-2-64", "2^64 - 1 is no negative number.", "tx/Sum", tx([spent(LOW, 0, b"w")], [paid(2**64 - 1)])),
    ("sum-just-below", "Two amounts that come to 2^63 - 1.", "tx/Sum", tx([spent(LOW, 0, b"w")], [paid(2**63 - 2), paid(1)])),
    ("sum-reached", "Two amounts that come to 2^63.", "tx/Sum", tx([spent(LOW, 0, b"w")], [paid(2**63 - 1), paid(1)])),
    ("sum-would-wrap", "Amounts whose sum modulo 2^64 is small.", "tx/Sum", tx([spent(LOW, 0, b"w")], [paid(2**63 - 1), paid(2**64 - 5)])),
    ("empty", "No bytes end before the first field.", "tx/Short refused/tx-short", b""),
    ("cut-in-outpoint", "The id and the place are one field of 33 bytes.", "tx/Short", ONE[:33]),
    ("cut-before-length", "The bytes end before a preimage's length.", "tx/Short", ONE[:34]),
    ("cut-in-preimage", "The bytes end within a preimage.", "tx/Short", tx([spent(LOW, 0, b"word")], [])[:37]),
    ("cut-before-outputs", "The bytes end before the number of outputs.", "tx/Short", ONE[:36]),
    ("cut-in-amount", "Seven bytes of an amount, all zero, aren't judged.", "tx/Short tx/first", tx([spent(LOW, 0, b"w")], [paid(0)])[:44]),
    ("cut-in-lock", "The bytes end within a lock.", "tx/Short", ONE[:-1]),
    ("amount-before-short", "An amount of 0 is found before the lock that is missing.", "tx/first tx/Amount", tx([spent(LOW, 0, b"w")], [u(0, 8)])),
    ("sum-before-short", "A sum that is too large is found before the lock that is missing.", "tx/first tx/Sum", tx([spent(LOW, 0, b"w")], [u(2**63, 8)])),
    ("amount-before-sum", "A second amount of 0 behind 2^63 - 1 is an amount's fault.", "tx/first tx/Amount", tx([spent(LOW, 0, b"w")], [paid(2**63 - 1), paid(0)])),
    ("order-before-preimage", "The order of outpoints is judged before the preimage's length.", "tx/first tx/InputOrder",
     tx([spent(LOW, 1, b"w"), spent(LOW, 1, b"")], [paid(1)])),
    ("preimage-before-outputs", "A faulty preimage is found before a faulty number of outputs.", "tx/first tx/PreimageLength", tx([spent(LOW, 0, b"")], [], None, 17)),
    ("longest", "The longest transaction has 2,210 bytes.", "tx/spelled tx/PreimageLength",
     tx([spent(HIGH, n, b"w" * 64) for n in range(16)], [paid(1, lock(str(n))) for n in range(16)])),
]


def other(*txs: bytes, salt: int = 1, parents: list[bytes] | None = None, count: int | None = None, version: int = 1) -> bytes:
    return block(salt, [G] if parents is None else parents, txs, 0, version, count)


TWO = tx([spent(LOW, 1, b"w")], [paid(1)])
FULL = [tx([spent(sha(bytes([n])), 0, b"w" * 64)], [paid(1)]) for n in range(256)]
FILL = [tx([spent(u(n, 32), i, b"w" * 64) for i in range(16)], [paid(1, lock(str(o))) for o in range(16)]) for n in range(29)]


def filled(length: int) -> bytes:
    """A block of just so many bytes: a last transaction takes what is left."""
    widths = [64] * 13
    left = length - len(other(*FILL, tx([spent(HIGH, n, b"w" * width) for n, width in enumerate(widths)], [paid(1)])))
    widths += [left - 34]
    return other(*FILL, tx([spent(HIGH, n, b"w" * width) for n, width in enumerate(widths)], [paid(1)]))


BLOCKS: list[Chosen] = [
    ("smallest", "A block without transactions on genesis, 52 bytes.", "block/spelled id/sha256", A),
    ("salt-and-nonce", "Salt and nonce are any numbers of 64 bits, the lowest byte first.", "block/spelled", block(2**64 - 2, [G], (), 0x0102030405060708)),
    ("two-txs", "Two transactions of different outpoints, in their order.", "block/spelled", other(TWO, ONE)),
    ("parents-64", "64 parents are the most.", "block/ParentCount", other(parents=[bytes([n]) + bytes(31) for n in range(64)])),
    ("parents-65", "65 parents, seen before any is read.", "block/ParentCount refused/parent-count", b"\1" + bytes(16) + b"\x41"),
    ("parents-0", "A block without parents is no block but genesis.", "block/ParentCount", GENESIS),
    ("parents-same", "One parent twice.", "block/ParentOrder refused/parent-order", other(parents=[G, G])),
    ("parents-descend", "Parents descend.", "block/ParentOrder", other(parents=[HIGH, LOW])),
    ("parents-ascend", "Parents ascend by their first byte.", "block/ParentOrder", other(parents=[bytes(31) + b"\2", b"\1" + bytes(31)])),
    ("txs-256", "256 transactions are the most.", "block/TxCount", other(*FULL)),
    ("txs-257", "257 transactions, seen before any is read.", "block/TxCount refused/tx-count", other(count=257)),
    ("version-0", "Version 0.", "block/Version refused/version", other(version=0)),
    ("version-2", "Version 2.", "block/Version", other(version=2)),
    ("empty", "No bytes.", "block/Short refused/short", b""),
    ("cut-in-salt", "The bytes end within the salt.", "block/Short", A[:8]),
    ("cut-in-nonce", "The bytes end within the nonce.", "block/Short", A[:16]),
    ("cut-before-parents", "The bytes end before the number of parents.", "block/Short", A[:17]),
    ("cut-in-parent", "The bytes end within a parent.", "block/Short", A[:49]),
    ("cut-in-count", "One of two bytes of the number of transactions.", "block/Short", A[:51]),
    ("cut-before-tx", "The count announces a transaction that isn't there.", "block/Tx refused/tx-short", other(count=1)),
    ("cut-in-tx", "The bytes end within a transaction.", "block/Tx", other(ONE)[:-1]),
    ("tx-fault", "A transaction's fault is the block's.", "block/Tx", other(tx([spent(LOW, 0, b"w")], [paid(0)]))),
    ("grant", "A transaction without inputs stands in genesis alone.", "block/Grant refused/grant", other(GRANT)),
    ("same-tx", "One transaction twice.", "block/SameTx refused/same-tx", other(ONE, ONE)),
    ("same-outpoint", "Two transactions spend one output.", "block/SameOutpoint refused/same-outpoint", other(ONE, tx([spent(LOW, 0, b"v")], [paid(1)]))),
    ("same-outpoint-third", "The third spends an output of the first.", "block/SameOutpoint", other(ONE, TWO, tx([spent(LOW, 0, b"v"), spent(LOW, 2, b"v")], [paid(1)]))),
    ("trailing", "One byte too many.", "block/Trailing refused/trailing", A + b"\0"),
    ("longest", "65,536 bytes are the longest.", "block/TooLong", filled(65_536)),
    ("too-long", "65,537 bytes that would spell a block.", "block/TooLong refused/too-long", filled(65_537)),
    ("too-long-first", "The length is judged before the version.", "block/TooLong block/first", bytes(65_537)),
    ("version-before-short", "A wrong version is found though nothing follows.", "block/first block/Version", b"\2"),
    ("order-before-count", "Parents out of order are found before 257 transactions.", "block/first block/ParentOrder", other(parents=[HIGH, LOW], count=257)),
    ("grant-before-next", "What is judged behind a transaction comes before the next one is read.", "block/first block/Grant", other(GRANT, count=2)),
    ("same-tx-before-outpoint", "One transaction twice has also its outpoint twice, and is told as the same.", "block/first block/SameTx", other(TWO, ONE, TWO)),
    ("tx-before-trailing", "A faulty transaction is found before bytes that follow.", "block/first block/Tx", other(tx([], [], 17)) + b"\0"),
]
GENESES: list[Chosen] = [
    ("genesis-smallest", "The smallest genesis block, 20 bytes.", "block/spelled", GENESIS),
    ("genesis-grant", "The genesis block with a grant of 100 to the lock of `abc`, 62 bytes.", "block/spelled", GRANTS),
    ("genesis-with-parent", "Genesis has no parents.", "block/ParentCount", A),
    ("genesis-spends", "Genesis carries no transaction with inputs.", "block/Grant", block(0, [], [ONE])),
    ("genesis-same-grant", "One grant twice.", "block/SameTx", block(0, [], [GRANT, GRANT])),
    ("genesis-two-grants", "Two grants that differ share no outpoint, since they have none.", "block/SameOutpoint", block(7, [], [GRANT, tx([], [paid(101)])])),
    ("genesis-trailing", "One byte too many.", "block/Trailing", GENESIS + b"\0"),
    ("genesis-short", "The bytes end before the number of transactions is whole.", "block/Short", GENESIS[:19]),
]

E = frame(b"E")
ASKED = [frame(b"V", sha(A) + sha(B)), frame(b"T", sha(GRANT)), frame(b"U", lock("abc")), frame(b"P"), frame(b"R")]
SMALL = feed(GENESIS, E)
FEEDS: list[Chosen] = [
    ("smallest", "The smallest feed has 39 bytes and no message.", "feed/whole", SMALL),
    ("all-kinds", "A message of each kind.", "feed/whole answer/vote answer/tx answer/balance answer/pairs answer/report",
     feed(GRANTS, frame(b"B", block(1, [sha(GRANTS)])), *ASKED, E)),
    ("profile-2", "The same bytes but for the version are a feed of profile 2.", "feed/profile", feed(GENESIS, frame(b"B", A), frame(b"R"), E, profile=2)),
    ("rest", "What follows the frame `E` stays unread.", "feed/whole", SMALL + frame(b"Z", b"junk")),
    ("rest-of-a-second", "A second feed behind the first stays unread.", "feed/whole", SMALL + SMALL),
    ("empty", "Nothing at all.", "feed/truncated code/3", b""),
    ("cut-in-version", "Seven bytes of the version, though they are wrong.", "feed/truncated", b"SPCTRX0"),
    ("cut-before-bits", "The bits are missing.", "feed/truncated", SMALL[:8]),
    ("cut-in-genesis", "The genesis block isn't whole.", "feed/truncated", SMALL[:20]),
    ("cut-in-length", "Three bytes of a length.", "feed/truncated", SMALL[:38]),
    ("cut-before-e", "All is there but the frame `E`; the messages are answered.", "feed/truncated", feed(GENESIS, frame(b"B", A), frame(b"R"))),
    ("cut-in-block", "The block's payload isn't whole.", "feed/truncated", feed(GENESIS, frame(b"B", A))[:-1]),
    ("version-3", "`SPCTRF03` is neither version.", "feed/version code/2", b"SPCTRF03" + SMALL[8:]),
    ("version-before-bits", "A wrong version is found before wrong bits.", "feed/version", b"SPCTRJ01\xff"),
    ("bits-64", "64 bits of work, which no block of these meets.", "feed/bits arrival/work refused/work", feed(GENESIS, frame(b"B", A), E, bits=64)),
    ("bits-65", "65 bits.", "feed/bits", feed(GENESIS, E, bits=65)),
    ("head-kind", "The head's frame is a question.", "feed/kind", b"SPCTRF01\0" + frame(b"R")),
    ("head-end", "The head's frame is the end.", "feed/kind", b"SPCTRF01\0" + E),
    ("kind-unknown", "A frame of kind `Z` at place 34.", "feed/kind", feed(GENESIS, b"Z")),
    ("kind-lower", "Kinds are capital letters.", "feed/kind", feed(GENESIS, frame(b"b", A), E)),
    ("kind-0", "A byte of 0 is no kind; what was asked before is answered.", "feed/kind", feed(GENESIS, frame(b"R"), b"\0")),
    ("length-v", "A question on two blocks has 64 bytes and not 63.", "feed/length", feed(GENESIS, frame(b"V", bytes(63)), E)),
    ("length-t", "A question on a transaction has 32 bytes and not 0.", "feed/length", feed(GENESIS, frame(b"T"), E)),
    ("length-u", "A question on a balance has 32 bytes and not 33.", "feed/length", feed(GENESIS, frame(b"U", bytes(33)), E)),
    ("length-p", "All pairs are asked for without a payload.", "feed/length", feed(GENESIS, frame(b"P", b"\0"), E)),
    ("length-r", "A report is asked for without a payload.", "feed/length", feed(GENESIS, frame(b"R", b"\0"), E)),
    ("length-e", "The end has no payload.", "feed/length", feed(GENESIS, frame(b"E", b"\0"))),
    ("length-b", "A block's frame has at most 65,537 bytes; the payload isn't waited for.", "feed/length", feed(GENESIS, frame(b"B", b"", 65_538))),
    ("length-b-head", "So has the head's.", "feed/length", b"SPCTRF01\0" + frame(b"B", b"", 65_538)),
    ("length-high-byte", "A length is four bytes, the lowest first.", "feed/length", feed(GENESIS, frame(b"B", b"", 1 << 24))),
    ("block-65537", "A frame of 65,537 bytes is read, and its block refused.", "feed/length refused/too-long", feed(GENESIS, frame(b"B", bytes(65_537)), E)),
    ("block-0", "A frame of no bytes is read, and its block refused.", "feed/length refused/short", feed(GENESIS, frame(b"B"), E)),
    ("genesis-other", "The head's payload is another block.", "feed/genesis", feed(A, E)),
    ("genesis-empty", "The head's payload is empty.", "feed/genesis", feed(b"", E)),
    ("genesis-trailing", "The head's payload has a byte too many.", "feed/genesis", feed(GENESIS + b"\0", E)),
    ("genesis-sent", "Genesis, sent as a block, has no parents.", "arrival/spelling refused/parent-count", feed(GENESIS, frame(b"B", GENESIS), E)),
]
# Each with the limit of its reading; no program of this command line can be asked.
LIMITED: list[tuple[str, str, str, bytes, int]] = [
    ("limit-33", "33 bytes were taken within the head, and another is needed.", "feed/too-long", SMALL, 33),
    ("limit-38", "The frame `E` lacks a byte within the limit.", "feed/too-long", SMALL, 38),
    ("limit-39", "A feed that is whole within the limit is whole.", "feed/too-long feed/whole", SMALL + b"more", 39),
    ("limit-just", "A feed that ends just at the limit is too long, since nothing behind it is looked at.", "feed/too-long", SMALL[:33], 33),
    ("limit-beyond", "A feed shorter than the limit is truncated.", "feed/too-long feed/truncated", SMALL[:33], 34),
    ("limit-malformed", "A fault within the limit is told.", "feed/too-long feed/kind", feed(GENESIS, b"Z") + bytes(9), 35),
    ("limit-before-fault", "A fault behind the limit isn't seen.", "feed/too-long", feed(GENESIS, b"Z"), 34),
    ("limit-0", "With no byte allowed the first one is too many.", "feed/too-long", SMALL, 0),
]

JOURNAL = journal(GENESIS, A, B)
C8 = mined(8, 1, [G])
MANY = [block(n, [G]) for n in range(1, 513)]
JOURNALS: list[Chosen] = [
    ("smallest", "The smallest journal has 35 bytes.", "journal/spelled show export", journal(GENESIS)),
    ("two", "Two records.", "journal/spelled show export", JOURNAL),
    ("profile-2", "A journal of profile 2.", "journal/profile", journal(GENESIS, A, profile=2)),
    ("bits-8", "A block that meets eight bits of work.", "journal/spelled id/work", journal(GENESIS, C8, bits=8)),
    ("waiting", "A record may wait for its parent.", "journal/spelled arrival/waiting", journal(GENESIS, block(3, [sha(A)]))),
    ("rest", "What follows the closed gate has no meaning.", "journal/rest", JOURNAL + record(A) + b"junk"),
    ("gate-other", "Any byte but 0xA5 is a closed gate.", "journal/rest", journal(GENESIS, A, end=b"\xa4")),
    ("grant", "The grants of genesis are accepted.", "show answer/report", journal(GRANTS)),
    ("empty", "An empty disk.", "journal/none code/7", b""),
    ("head-gate", "The first gate is closed.", "journal/none", b"\0" + JOURNAL[1:]),
    ("head-version", "Neither version.", "journal/none", b"\xa5SPCTRJ03" + JOURNAL[9:]),
    ("head-feed", "A feed is no journal.", "journal/none", SMALL),
    ("head-bits", "65 bits.", "journal/none", journal(GENESIS, bits=65)),
    ("head-length", "A genesis block of 65,537 bytes is announced.", "journal/none", b"\xa5SPCTRJ01\0" + u(65_537, 4) + bytes(65_540)),
    ("head-cut", "The head isn't whole.", "journal/none", JOURNAL[:33]),
    ("head-genesis", "The head's block has a parent.", "journal/none", journal(A)),
    ("head-alone", "The disk ends where the first record's gate should be.", "journal/damaged code/10", journal(GENESIS, end=b"")),
    ("no-last-gate", "The disk ends before the gate behind the records.", "journal/damaged", JOURNAL[:-1]),
    ("cut-length", "The length of a record isn't whole.", "journal/damaged", JOURNAL[:37]),
    ("cut-record", "A record isn't whole.", "journal/damaged", JOURNAL[:100]),
    ("cut-second", "The second record isn't whole, and the damage is at its gate.", "journal/damaged", journal(GENESIS, A, B[:-1], end=b"")),
    ("length-65537", "A record of more than 65,536 bytes is announced.", "journal/damaged", journal(GENESIS, bytes(65_537))),
    ("no-block", "A record's bytes spell no block.", "journal/damaged", journal(GENESIS, A, A[:-1] + b"\1")),
    ("genesis-again", "The genesis block isn't a record.", "journal/damaged", journal(GENESIS, GENESIS)),
    ("work", "A record misses the work.", "journal/damaged", journal(GENESIS, C8, A, bits=8)),
    ("same-id", "One block twice.", "journal/damaged", journal(GENESIS, A, B, A)),
    ("most", "511 records are the most.", "journal/most", journal(GENESIS, *MANY[:511])),
    ("too-many", "An open gate behind 511 records.", "journal/most journal/damaged", journal(GENESIS, *MANY)),
]

IDA, IDB = sha(A), sha(B)
TIE = [(65_535, "0-+")]
C = block(3, sorted([IDA, IDB]))  # on both
D = block(4, [IDA])
THREE = [GENESIS, A, B, C]
CHAIN = [GENESIS, A, block(9, [IDA])]
BOTH = [(65_535, "0-+0"), (3, "0-+0")]
SMALLEST = cert([GENESIS, A, B], IDA, IDB, 0, TIE)
CERTS: list[Chosen] = [
    ("tie", "Two blocks side by side on genesis, 219 bytes.", "cert/spelled", SMALLEST),
    ("tie-turned", "The same the other way round.", "cert/spelled", cert([GENESIS, A, B], IDB, IDA, 0, [(65_535, "0+-")])),
    ("chain", "Genesis before a block: the votes of the two are those of cases 1 and 2.", "cert/spelled vote/x vote/y",
     cert(CHAIN, G, IDA, -1, [(65_535, "---"), (2, "--0")])),
    ("chain-after", "A block behind genesis.", "cert/spelled vote/x vote/y vote/ancestors",
     cert(CHAIN, IDA, G, 1, [(65_535, "+++"), (2, "++0")])),
    ("three", "A third block decides, and genesis votes as the sum.", "cert/spelled vote/only vote/neither", cert([GENESIS, A, B, D], IDA, IDB, -1, [(65_535, "--+-")])),
    ("joined-1", "In profile 1 a block on both keeps their tie.", "cert/spelled vote/both vote/tie-1", cert(THREE, IDA, IDB, 0, BOTH)),
    ("joined-2", "In profile 2 it votes for the smaller salt.", "cert/spelled vote/tie-2", cert(THREE, IDA, IDB, -1, [(65_535, "--+-"), (3, "0-+0")], 2)),
    ("joined-2-turned", "So it does where y has it.", "cert/spelled vote/tie-2", cert(THREE, IDB, IDA, 1, [(65_535, "++-+"), (3, "0+-0")], 2)),
    ("no-work", "The blocks need no work, and may stand in any order in which parents come first.", "cert/spelled",
     cert([GENESIS, B, A], IDA, IDB, 0, [(65_535, "0+-")])),
    ("empty", "Nothing at all.", "cert/truncated", b""),
    ("cut-last", "The last vote is missing.", "cert/truncated", SMALLEST[:-1]),
    ("cut-block", "A block's bytes aren't whole.", "cert/truncated", SMALLEST[:40]),
    ("cut-length", "A block's length isn't whole.", "cert/truncated", SMALLEST[:14]),
    ("cut-sign", "The sign is missing.", "cert/truncated", SMALLEST[:-8]),
    ("version", "Other eight bytes.", "cert/malformed", b"SPCTRC02" + SMALLEST[8:]),
    ("profile-0", "Profile 0.", "cert/malformed", cert([GENESIS, A, B], IDA, IDB, 0, TIE, 0)),
    ("profile-3", "Profile 3.", "cert/malformed", cert([GENESIS, A, B], IDA, IDB, 0, TIE, 3)),
    ("blocks-0", "No blocks.", "cert/malformed", cert([], IDA, IDB, 0, TIE)),
    ("blocks-513", "513 blocks, seen before any is read.", "cert/malformed", b"SPCTRC01\1" + u(513, 2)),
    ("length", "A block of 65,537 bytes is announced.", "cert/malformed", b"SPCTRC01\1" + u(1, 2) + u(65_537, 4)),
    ("first-other", "The first block is no genesis block.", "cert/malformed", cert([A, B], IDA, IDB, 0, TIE)),
    ("second-genesis", "The second block is a genesis block.", "cert/malformed", cert([GENESIS, GENESIS], IDA, IDB, 0, TIE)),
    ("block-short", "The second block's bytes spell none, and are the place.", "cert/malformed", cert([GENESIS, A[:-1], B], IDA, IDB, 0, TIE)),
    ("sign-3", "A sign of 3.", "cert/malformed", SMALLEST[:-8] + b"\3" + SMALLEST[-7:]),
    ("worlds-0", "No world.", "cert/malformed", cert([GENESIS, A, B], IDA, IDB, 0, [])),
    ("worlds-513", "513 worlds, seen before any is read.", "cert/malformed", cert([GENESIS, A, B], IDA, IDB, 0, [])[:-2] + u(513, 2)),
    ("vote-3", "A vote of 3, at its own place.", "cert/malformed", SMALLEST[:-1] + b"\3"),
    ("trailing", "A byte behind the last field.", "cert/malformed", SMALLEST + b"\0"),
    ("parent-later", "A parent comes later.", "cert/parent", cert([GENESIS, D, A], IDA, IDB, 0, TIE)),
    ("parent-absent", "A parent isn't there.", "cert/parent", cert([GENESIS, A, block(3, [IDB])], IDA, G, 1, [(65_535, "+++")])),
    ("parent-same-id", "One block twice.", "cert/parent", cert([GENESIS, A, A], IDA, G, 1, [(65_535, "+++")])),
    ("pair-same", "x and y are one block.", "cert/pair", cert([GENESIS, A, B], IDA, IDA, 0, TIE)),
    ("pair-x", "x isn't there.", "cert/pair", cert([GENESIS, A], IDB, IDA, 0, [(65_535, "00")])),
    ("pair-y", "y isn't there.", "cert/pair", cert([GENESIS, A], IDA, IDB, 0, [(65_535, "00")])),
    ("world-first", "The first world isn't that of all blocks.", "cert/world", cert([GENESIS, A, B], IDA, IDB, 0, [(0, "0-+")])),
    ("world-missing", "The world of a block with both in its past is missing.", "cert/world", cert(THREE, IDA, IDB, 0, BOTH[:1])),
    ("world-surplus", "A world too many counts at its own place.", "cert/world", cert([GENESIS, A, B], IDA, IDB, 0, [*TIE, (2, "0-+")])),
    ("world-order", "Worlds descend.", "cert/world", cert([*THREE, block(5, [sha(C)])], IDA, IDB, 0, [(65_535, "0-+00"), (4, "0-+00"), (3, "0-+00")])),
    ("world-twice", "The world of all blocks stands twice.", "cert/world", cert([GENESIS, A, B], IDA, IDB, 0, [*TIE, *TIE])),
    ("world-number", "A number beyond the blocks.", "cert/world", cert(THREE, IDA, IDB, 0, [BOTH[0], (7, "0-+0")])),
    ("vote-genesis", "The last vote is turned, so that of genesis isn't right.", "cert/vote vote/neither", cert([GENESIS, A, B], IDA, IDB, 0, [(65_535, "0--")])),
    ("vote-x", "x votes for itself.", "cert/vote vote/x", cert([GENESIS, A, B], IDA, IDB, 1, [(65_535, "+++")])),
    ("vote-y", "y votes for itself.", "cert/vote vote/y", cert([GENESIS, A, B], IDA, IDB, -1, [(65_535, "---")])),
    ("vote-only", "A block on A alone votes for A.", "cert/vote vote/only", cert([GENESIS, A, B, D], IDA, IDB, 1, [(65_535, "+-++")])),
    ("vote-both", "A block on both can't settle the tie in profile 1.", "cert/vote vote/both vote/tie-1", cert(THREE, IDA, IDB, -1, [(65_535, "--+-"), (3, "0-+0")])),
    ("vote-both-2", "In profile 2 it can't keep it.", "cert/vote vote/tie-2", cert(THREE, IDA, IDB, 0, BOTH, 2)),
    ("vote-inner", "An entry of the second world.", "cert/vote", cert(THREE, IDA, IDB, 0, [BOTH[0], (3, "+-+0")])),
    ("vote-outside", "A block that isn't in the world has 0.", "cert/vote", cert(THREE, IDA, IDB, 0, [BOTH[0], (3, "0-+-")])),
    ("sum", "The sign isn't that of the sum.", "cert/sum code/13", cert([GENESIS, A, B], IDA, IDB, -1, TIE)),
    ("parent-before-pair", "A parent's fault is told before the pair's.", "cert/order cert/parent", cert([GENESIS, D], IDA, IDA, 0, [(65_535, "00")])),
    ("pair-before-world", "The pair's fault is told before a world's.", "cert/order cert/pair", cert([GENESIS, A], IDA, IDA, 0, [(3, "00")])),
    ("world-before-vote", "A world's fault is told before a vote's.", "cert/order cert/world", cert(THREE, IDA, IDB, 0, [(65_535, "++++")])),
    ("vote-before-sum", "A vote's fault is told before the sum's.", "cert/order cert/vote", cert([GENESIS, A, B], IDA, IDB, -1, [(65_535, "--+")])),
    ("malformed-before-parent", "A field at fault is told before anything is refused.", "cert/order cert/malformed",
     cert([GENESIS, D], IDA, IDB, 0, [(65_535, "00")]) + b"\0"),
]
