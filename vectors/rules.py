"""The rules and faults that the vectors are for: under the place where each stands, its name and what it says."""

from __future__ import annotations

RULES: dict[tuple[str, str], dict[str, str]] = {
    ("Ids", "FORMATS.md#ids-locks-and-outpoints"): {
        "id/sha256": "an id is the SHA-256 of the bytes, a lock that of the preimage",
        "id/text": "64 digits of either case, the first byte first; lower case is written",
        "id/odd": "OddLength: an odd number of bytes",
        "id/length": "WrongLength: an even number that isn't 64",
        "id/digit": "BadDigit: the first byte that is no digit, where the length is right",
        "id/work": "the first bits are zero, each byte read from its highest bit",
    },
    ("Transactions", "FORMATS.md#transactions"): {
        "tx/spelled": "the fields, one behind the other",
        "tx/InputCount": "0 to 16 inputs",
        "tx/InputOrder": "outpoints strictly ascend, by id and then by place",
        "tx/PreimageLength": "a preimage has 1 to 64 bytes",
        "tx/OutputCount": "1 to 16 outputs",
        "tx/Amount": "an amount is at least 1",
        "tx/Sum": "the amounts so far are below 2^63",
        "tx/Short": "the bytes end within a field or before it",
        "tx/first": "the first fault in the order of reading, and of one field the first rule",
    },
    ("Blocks", "FORMATS.md#blocks"): {
        "block/spelled": "the fields, one behind the other",
        "block/TooLong": "at most 65,536 bytes, judged before all fields",
        "block/Short": "the bytes end within a field of the head or before it",
        "block/Version": "the version is 1",
        "block/ParentCount": "no parents in genesis, 1 to 64 in other blocks",
        "block/ParentOrder": "parents strictly ascend",
        "block/TxCount": "0 to 256 transactions",
        "block/Tx": "a transaction's own fault",
        "block/Grant": "no inputs in genesis, at least one in other blocks",
        "block/SameTx": "no transaction stands twice",
        "block/SameOutpoint": "no outpoint stands twice",
        "block/Trailing": "nothing follows the last transaction",
        "block/first": "the first fault in the order of the table; rules behind a transaction before the next is read",
    },
    ("Feeds", "FORMATS.md#feeds"): {
        "feed/whole": "the frame `E` was read; what follows stays unread",
        "feed/version": "malformed at 0: the eight bytes are of neither version",
        "feed/bits": "malformed at 8: the bits are above 64",
        "feed/kind": "malformed at the place of a kind that is unknown, or in the head isn't `B`",
        "feed/length": "malformed at a length that isn't one of its kind's",
        "feed/genesis": "malformed at the payload that spells no genesis block",
        "feed/truncated": "the source ended before the frame `E` was whole",
        "feed/too-long": "as many bytes as the limit were taken, and another is needed",
        "feed/profile": "the eight bytes say the profile, and nothing else differs",
    },
    ("Scenarios", "FORMATS.md#scenarios"): {
        "text/lines": "lines end with byte 10, the last may lack it; a byte 13 before it is dropped once; skipped lines count",
        "text/words": "spaces and tabs separate words; `#` begins what is skipped",
        "text/too-long": "16,777,216 bytes or more are too long",
        "text/stops": "lines are played up to the first with a fault",
        "text/left-to-right": "a word is read by its place, whatever it would mean elsewhere",
        "text/make": "`make` makes a block, `send` sends it, more than once",
        "text/bytes": "what lines make: salts, nonces, order of inputs and parents, preimages",
        "text/labels": "names and the first word of a lock are the labels; lists go in the order of naming",
        "text/build": "`build` writes the feed of a scenario, or the line of its fault alone",
    },
    ("Faults of a scenario's line", "FORMATS.md#faults-of-a-line"): {
        f"line/{why}": says for why, says in {
            "byte": "a byte other than 9, 32 and 33 to 126", "command": "an unknown first word", "late": "`profile`, `bits` or `grant` too late",
            "form": "the words don't have the line's form", "name": "a new NAME isn't well formed", "taken": "a new NAME is used already",
            "unknown": "no such block, transaction or output", "repeat": "a parent, a transaction or an output twice",
            "number": "a number badly spelled or out of its range, or outputs of 2^63 or more", "word": "a WORD longer than 64 bytes",
            "many": "a limit is passed", "twin": "a transaction of an earlier one's id", "work": "no nonce below 1,048,576 meets the work",
            "order": "of two faults the one that is judged first"}.items()
    },
    ("Arrivals", "FORMATS.md#arrivals"): {
        "arrival/spelling": "bytes that spell no block are refused first",
        "arrival/work": "then those whose id misses the work",
        "arrival/known": "then an id that is kept, also where there is no room",
        "arrival/full": "then there is no room behind 512 kept blocks",
        "arrival/present": "kept and present, with the number that became so",
        "arrival/waiting": "kept and waiting",
        "arrival/order": "the order of arrival doesn't matter to questions",
    },
    ("Words of refusals", "FORMATS.md#arrivals"): {
        f"refused/{why}": f"the word `{why}`" for why in (
            "too-long short version parent-count parent-order tx-count tx-short tx-input-count tx-input-order tx-preimage tx-output-count "
            "tx-amount tx-sum grant same-tx same-outpoint trailing work").split()
    },
    ("Answers", "FORMATS.md#answers"): {
        "answer/vote": "`before`, `after`, `tie`, `same` or `absent`",
        "answer/tx": "`accepted`, `rejected` or `absent`",
        "answer/balance": "what is left under a lock, 0 where nothing is",
        "answer/pairs": "all pairs, by ids or in the order of naming",
        "answer/report": "blocks, accepted transactions and balances",
    },
    ("Votes", "DEFINITIONS.md#votes-cratessp_modelspecsvotesantt"): {
        "vote/x": "z is x", "vote/y": "z is y", "vote/only": "exactly one is in the past of z",
        "vote/both": "both are: the virtual vote of the past of z, and of nothing else",
        "vote/tie-1": "profile 1 keeps a voter's tie", "vote/tie-2": "profile 2 settles it by the salt",
        "vote/tie-id": "and at equal salts by the id",
        "vote/neither": "neither is: the sign of the sum over the future of z",
        "vote/sum": "the virtual vote is the sign of the sum of all votes", "vote/ancestors": "an ancestor always comes first",
        "vote/cycle": "the order need not be transitive",
    },
    ("Accepted transactions", "FORMATS.md#accepted-transactions"): {
        "accept/genesis": "carriers in genesis are sound",
        "accept/output": "sound: each input names an output that the past carries",
        "accept/preimage": "sound: each preimage opens the lock",
        "accept/worth": "sound: the inputs are worth what the outputs are; the difference is lost",
        "accept/inputs": "each input's transaction has an accepted carrier in the past",
        "accept/before": "the block comes before each in its anticone with a sound rival; a tie isn't enough",
        "accept/past": "no sound rival in the past is accepted",
        "accept/unsound": "a rival that isn't sound hinders nothing",
        "accept/any": "accepted where some carrier is; it counts once",
        "accept/turned": "what was accepted is rejected again when votes turn",
    },
    ("Balances", "FORMATS.md#balances"): {
        "balance/unspent": "the outputs of accepted transactions that no accepted one spends",
        "balance/once": "a transaction in several blocks counts once",
        "balance/large": "balances beyond 2^64 are told exactly",
    },
    ("Scenarios from numbers", "FORMATS.md#scenarios-from-numbers"): {
        "numbers/make": "the text of three numbers", "numbers/drill": "the summary of that scenario",
    },
    ("Scripts of nodes", "FORMATS.md#scripts-of-nodes"): {
        "gossip/have": "`tell` sends `have` with all that is kept", "gossip/want": "`want` has what isn't kept",
        "gossip/blocks": "`blocks` has what is kept, and each arrives", "gossip/idle": "where there is no id, nothing is sent",
        "gossip/again": "a packet may arrive again, late, or never", "gossip/report": "a node's report",
        **{f"gossip/{why}": f"the fault `{why}`" for why in "byte command form number node packet unknown many nodes".split()},
        "gossip/scenario": "a fault of the scenario, or of the line `nodes`, stands alone",
    },
    ("Journals", "FORMATS.md#journals"): {
        "journal/spelled": "a head, records behind open gates, and a closed gate", "journal/rest": "what follows the closed gate has no meaning",
        "journal/none": "no journal: the head is short, or breaks a rule", "journal/damaged": "damaged at the gate of the first record at fault",
        "journal/most": "511 records, and no more", "journal/profile": "the eight bytes say the profile",
        "node/records": "a kept block is recorded, in its order; nothing else is", "node/found": "the journal's blocks come before the feed's",
        "node/fresh": "`--fresh` makes a journal over other bytes, and never over a journal", "node/other-chain": "other bits, genesis or profile",
        "node/order": "the disk is judged before the feed's head, the head before the chain", "show": "`show` writes the report behind `recovered N`",
        "export": "`export` writes the feed of the records in a profile",
    },
    ("A spend", "FORMATS.md#a-spend"): {
        "spend/order": "the largest candidates first, of one amount by outpoints", "spend/inputs": "inputs ascend, each with the first word of its lock",
        "spend/rest": "what is more goes to the first word; nothing where it is just the amount", "spend/poor": "at most 16 candidates reach the amount",
        "spend/large": "what is chosen is below 2^63", "spend/accepted": "only what accepted transactions leave is spent",
    },
    ("A watch", "FORMATS.md#a-watch"): {
        "watch/changes": "behind each message `B` the items that it changes, in their order",
        "watch/held": "behind `E` the last change and the number of changes", "watch/fault": "a fault's line stands last, and no `held`",
    },
    ("Certificates", "FORMATS.md#certificates"): {
        "cert/spelled": "the fields, one behind the other", "cert/malformed": "malformed at the first field that breaks its rule",
        "cert/truncated": "the bytes end before", "cert/parent": "refused: a parent isn't an earlier block, or an id repeats",
        "cert/pair": "refused: x and y aren't two different blocks", "cert/world": "refused: not just the worlds that there are",
        "cert/vote": "refused: an entry isn't what the first case gives", "cert/sum": "refused: the sign isn't that of the sum",
        "cert/order": "refused for the first of these", "cert/certify": "`certify` writes the certificate of two present blocks",
        "cert/no-pair": "NoPair: one id, or one that isn't present",
    },
    ("Words and exit codes", "FORMATS.md#words-and-exit-codes"): {
        "words/usage": "all other words are a faulty command line", "words/ids": "ids are compared, and not how they are spelled",
        **{f"code/{code}": f"exit code {code}, {name}" for code, name in enumerate(
            "Done Usage Malformed Truncated ReadFault WriteFault DiskFault NotJournal OtherChain Memory Damaged TooLong NoPair Refuted Poor Large".split())
           if name != "Memory"},
    },
}

ALL = {name: says for group in RULES.values() for name, says in group.items()}
