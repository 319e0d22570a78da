"""What each page of the statement begins with, from which definitions it follows all that they name, and which it does not open, with the reason."""
import dataclasses


@dataclasses.dataclass
class Plan:
    """One page."""

    file: str
    head: str
    seeds: list
    calls: list = dataclasses.field(default_factory=list)
    closed: dict = dataclasses.field(default_factory=dict)
    parts: dict = dataclasses.field(default_factory=dict)


@dataclasses.dataclass
class Plans:
    """All pages; how many lines so many first ones may have together; of how many definitions of a crate there may be no sentence."""

    pages: list
    most: list
    silent: dict


PLAIN = Plan(
    file="docs/STATEMENT.md",
    head="""# What is claimed, and all that it says

The first of four pages, in the words of a node that holds every output and reads no proof: nothing of the accumulator stands here. `.ci/statement`
makes the pages from the sources, and the gate refuses a page that says something else. Whoever believes this page, and what
[README.md](../README.md) says is trusted, need believe no line of code and of proof.

| Claimed, for each digest of 32 bytes | Definition | Call and clause that carry it |
|---|---|---|
| 1. Whatever the feed, if it is bytes: what `follow` says of its events from the start, line by line, could be said by a node that holds every output and reads no proof. Each block that it accepts is valid, a refused one changes nothing, rollbacks are made as they are asked for. Or `audit` over the same bytes, with the same watch list, ends with two different texts with one digest, and prints them | `IsFollowedValid`: `AreValid`, `IsValid`, `AuditShows` | `run`: `did.claims` of `follow`; law `followed_is_valid` |
| 2. So it is where `follow` goes on from what it stored of a first feed, of all that was said since the start; or an auditor that is told the events of both shows two such texts | `IsResumedValid` | `run`: `did.claims` with `--from`; law `resumed_is_valid` |
| 3. Over what a proving node writes of any blocks and rollbacks, `follow` from the start accepts each block that this node accepted, and makes each rollback that it made. (A node that refuses all would meet the first claim alone) | `FollowsProving` | `run`: `did.claims` of `follow` |
| 4. `prove` says of each event what a node says that holds every output and asks for no proof, and stores what that node writes | `proving`, `prove_answer` | `run`: `did.ran.gives` |
| 5. That is printed and stored, to the last byte. Where a port fails or memory is wanting a part of it is, in this order; and where no input is bad the run comes to its end | `Did`, `Ran`, `IsStopped` | `run`: `did` |
| 6. Bytes are read as a block exactly where they are the text of one | `BlockIsRead` | law `block_is_read` |
| 7. The program does this with SHA-512/256 and within these limits | `program_digest`, `program_limits` | `run_program` |

What is not opened here is named with the reason. [The exact claim](STATEMENT_EXACT.md) opens proofs, right and forged, the forest, each refusal with its
details, and the states that are stored; [the third page](STATEMENT_TICKETS.md) tickets, what a node keeps, and which two texts are shown; and
[the fourth](STATEMENT_OTHERS.md) all other commands. Types of Rust stand as they are written, but in few lines; the words `pub`, `abbrev` and `unfoldable`
are left out. Names of the standard library stand for what they say: lists, options, numbers in decimal and hexadecimal digits, SHA-256.

`f : A → B` is a function, `λ x. e` one with no name, and `f x` what it gives of x. `ℕ` are the numbers from 0 on, `x ∷ xs` is a list with x in front,
and `xs ++ ys` two lists in a row. As something said, `x ≡ y` is that both are the same, `P × Q` both, `P ⊎ Q` one of them, `P → Q` that Q holds where P
does, `P ↔ Q` both ways, `⊥` what never holds, `⊤` and `Unit {0}` what always does, `(x : X) → P` that P holds of each x, `(x : X) × P` of some x, and
a record all that its fields say. What a port holds is None where it is not told.""",
    seeds=[
        "node_commands.Following.following_afresh",
        "node_commands.Following.following_on",
        "node_commands.Prover.proving",
        "node_commands.Runs.Did",
        "node_commands.Runs.UsedRose",
        "plain_laws.Valid.BlockIsRead",
        "utreexo.Program.program_digest",
        "utreexo.Program.program_limits",
    ],
    closed={
        "compact_node.Throughout.verdicts_on": "what `follow` says of each event; the claim is what that can be",
        "compact_node.Throughout.node_after": "the claim is of what it says; the third page opens what it keeps",
        "compact_node.Node.fresh_node": "the third page opens what it keeps",
        "compact_node.Node.NodeState": "the third page opens what it keeps",
        "compact_node.State.stored_text": "that of version 2",
        "compact_node.State.stored_state": "the third page opens it",
        "node_commands.Follow.full_text": "the second page opens what is stored",
        "compact_node.Throughout.NoneIsForged": "the second page says what is forged",
        "node_commands.Follow.PrintsAsFull": "the claim with exact lines, where no proof is forged",
        "node_commands.Starting.ResumesAsFull": "the claim with exact lines, from a prior state",
        "node_commands.Starting.IsStart": "the second page says which texts are states",
        "node_commands.Starting.IsGoodBehind": "the second page says which texts are states",
        "node_commands.Proving.proving_text": "what a proving node writes; the clause of `prove` says that this is stored",
        "node_commands.Auditor.audit_answer": "that it ends with two such texts is what is claimed",
        "block_codec.Reading.block_in": "the block of which these bytes are the text (`BlockIsRead`)",
        "node_rules.Reading.handed_in": "nothing that a valid block is asked for",
        "node_rules.Reading.Handed": "nothing that a valid block is asked for",
        "report_lines.declared.line.Line.Line": "each stands in `line_text`",
        "state_text.Stored.IsTextOf": "the second page has both versions",
        "audit_replay.Laws.shown_by": "that they differ and have one digest is claimed",
    },
    parts={
        "report_lines.Lines.line_text": (
            ["Told", "End", "FrameMagic", "FrameCut", "FrameLong", "FrameRollback", "LimitFeed", "Watch", "LimitWatch", "Clash"],
            "the lines of `follow`, `prove` and a clash",
        )
    },
)
EXACT = Plan(
    file="docs/STATEMENT_EXACT.md",
    head="""# The exact claim

The second page, behind [the claim in a plain node's words](STATEMENT.md), whose definitions do not stand here again.

| Claimed | Definition | Call and clause that carry it |
|---|---|---|
| Where no proof in the feed is forged, `follow` prints, stores and ends as a node does that holds every output and judges each proof by them, hash by hash; and of the events before the first forged one it prints the same lines | `PrintsAsFull`: `IsAsOfFull`, `full_answer` | `run`: `did.claims` of `follow` |
| So it is from each state, in either version, of such a node | `ResumesAsFull` | `run`: `did.claims` with `--from` |
| `audit` prints what that node says, and then what is live and was issued; at the first forged proof, and nowhere else, it prints two different texts with one digest, one of the forest and one that the proof digests | `AuditsFeed`: `IsClash` | `run`: `did.claims` of `audit` |

A proof is *forged* (`is_forged`) where the rules before it pass, the roots accept it (`proof_fault` finds nothing), and it is not *right* (`is_right`).""",
    seeds=[
        "node_commands.Following.following_afresh",
        "node_commands.Following.following_on",
        "node_commands.Prover.proving",
        "node_commands.Auditing.auditing",
        "node_commands.Runs.Did",
    ],
    closed={
        "compact_node.Node.NodeState": "what a compact node keeps: the claims say what it answers",
        "compact_node.Throughout.verdicts_on": "the claims say what is answered",
        "compact_node.Throughout.node_after": "the claims say what is answered",
        "compact_node.State.stored_text": "the claims say what is answered",
        "compact_node.State.stored_state": "the claims say what is answered",
        "audit_replay.Laws.shown_by": "`AuditsFeed` says what they are",
        "compact_node.Node.fresh_node": "it answers as a node with no block (`PrintsAsFull`)",
        "compact_node.Node.IsNode": "it holds of each node; the third page opens it",
        "compact_node.State.IsReadAs": "the node that a state text says (`ResumesAsFull`)",
        "node_commands.Auditor.audit_answer": "`AuditsFeed` says what it is",
        "node_commands.Auditor.audit_lines": "those of `AuditsFeed`",
        "block_codec.Reading.block_in": "the block of which these bytes are the text (`BlockIsRead`)",
        "proof_wire.Reading.whole_at": "the message of which these bytes are the text (law `message_is_read`)",
        "report_lines.declared.line.Line.Line": "each stands in `line_text`",
        "leaf_record.declared.record.Record.Record": "a leaf, as the program keeps it",
    },
    parts={"report_lines.Lines.line_text": (["PriorForm", "PriorVersion", "LimitPrior", "Supply"], "the further lines of `follow` and `audit`")},
)
TICKETS = Plan(
    file="docs/STATEMENT_TICKETS.md",
    head="""# Tickets, what a node keeps, and which two texts are shown

The third page, behind [the exact claim](STATEMENT_EXACT.md): what `upgrade state`, `ticket`, `check` and `recheck` do (`upgrading_state`, `ticketing`,
`checking`, `rechecking`, clauses `did.ran.gives` and `did.claims` of `run`), and all that the first two pages left closed.""",
    seeds=[
        "node_commands.Following.following_on",
        "node_commands.Auditing.auditing",
        "node_commands.Upgrading.upgrading_state",
        "node_commands.Ticketing.ticketing",
        "node_commands.Checking.checking",
        "node_commands.Rechecking.rechecking",
    ],
)
OTHERS = Plan(
    file="docs/STATEMENT_OTHERS.md",
    head="""# The other commands

The last page, behind [that of tickets](STATEMENT_TICKETS.md): which words are accepted, what `order`, `gen`, `upgrade feed` and `relay` do, and what the
ports and the digest are of which `run` speaks. With it every definition stands on one page that the clauses of `run` and `run_program` come to.""",
    seeds=[
        "uo_digest.declared.digester.Digester.Digester",
        "uo_base.declared.ports.Source.Source",
        "uo_base.declared.ports.Sink.Sink",
        "uo_digest.declared.steps.Steps.Steps",
        "feed_run.declared.status.Status.Status",
        "uo_base.declared.event.Limits.Limits",
    ],
    calls=[("crates/utreexo/src/program.rt", "run_program"), ("crates/node_commands/src/running.rt", "run")],
)
# Of so many definitions of a crate there is no sentence yet; no further one may lack its own.
SILENT = {
    **{"block_codec": 3, "bridge_prover": 11, "cache_model": 5, "cache_update": 1, "chain_gen": 19, "chain_order": 2},
    **{"feed_frame": 2, "feed_run": 3, "forest_roots": 1, "leaf_record": 2, "message_upgrade": 4, "node_rules": 2, "output_index": 3},
    **{"proof_wire": 2, "relay_script": 7, "state_text": 11, "tx_codec": 6, "uo_base": 6, "uo_digest": 1},
}
PLANS = Plans(pages=[PLAIN, EXACT, TICKETS, OTHERS], most=[(1, 1200), (2, 2000)], silent=SILENT)
