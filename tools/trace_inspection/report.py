"""The report: each replica, what was lost, refused or late, and what a stalled run waited for."""

from __future__ import annotations

from collections import Counter
from collections.abc import Collection, Iterable

from trace_inspection.order import Order, late_of, lost_and_pending, may_be_on_the_way
from trace_inspection.replica import Replica
from trace_inspection.trace import FIRST_BLOCK, HEIGHTS, REASONS, Entry, Send, Trace, Tx, sealed_of

MAX_LINES = 40


def tx_text(tx: Tx) -> str:
    return "%d.%d.%d" % tx


def some(items: Iterable[object], most: int = 8) -> str:
    """The first items, and how many more there are."""
    all_items = list(items)
    more = f" and {len(all_items) - most} more" if len(all_items) > most else ""
    return ", ".join(map(str, all_items[:most])) + more


def why_lacking(trace: Trace, me: int, other: int, kind: str, view: int, lost: list[Send]) -> str:
    """Why a replica lacks a message of another one."""
    if other in trace.faulty:
        return "faulty"
    if any((s.kind, s.view, s.sender, s.to) == (kind, view, other, me) for s in lost):
        return "lost"
    for entry in trace.journals[me]:
        message = entry.message
        if entry.sender == other and message and entry.reason != "Done":
            if (message.kind, message.view) == (kind, view):
                return f"refused: {entry.reason}"
    return "not sent"


def lacking(
    trace: Trace, me: int, have: Collection[int], kind: str, view: int, lost: list[Send]
) -> str:
    """Which messages of a quorum a replica lacks, and why."""
    why = [
        f"{r} ({why_lacking(trace, me, r, kind, view, lost)})"
        for r in range(trace.n) if r not in have
    ]
    return f"has {len(have)} of {trace.quorum}; lacks " + some(why, 16)


def leading(trace: Trace, replica: Replica, sealed: set[tuple[str, int]], lost: list[Send]) -> str:
    """What the leader of a view waited for."""
    view, me = replica.view, replica.me
    if ("Propose", view) in sealed:
        return f"leads view {view}, has proposed, and waits for the block to come back"
    if ("Ask", view) in sealed:
        return f"leads view {view}, has asked, and waits for local orders: " + lacking(
            trace, me, replica.orders[view], "Order", view, lost
        )
    votes = [voters for (of_view, _), voters in replica.votes.items() if of_view == view - 1]
    if votes:
        most = max(votes, key=lambda voters: len(voters))
        return f"leads view {view}, and waits for votes of view {view - 1}: " + lacking(
            trace, me, most, "Vote", view - 1, lost
        )
    return f"leads view {view}, and waits for calls for it: " + lacking(
        trace, me, replica.calls[view], "NewView", view, lost
    )


def doing(trace: Trace, replica: Replica, lost: list[Send]) -> str:
    """What a replica did last, and what it waited for."""
    view, me = replica.view, replica.me
    sealed = {sealed_of(s) for entry in trace.journals[me] for s in entry.sealed}
    leader = trace.leader(view)
    who = f"replica {leader}" + (", which is faulty" if leader in trace.faulty else "")
    if view == 0:
        return "is in view 0: no tick has come"
    if ("Vote", view) in sealed:
        return f"has voted in view {view}"
    if leader == me:
        return leading(trace, replica, sealed, lost)
    if ("Vote", view - 1) in sealed:
        return f"has voted in view {view - 1}, and waits for the block of view {view} from {who}"
    if ("Order", view) in sealed:
        return f"has sent its local order of view {view}, and waits for the block from {who}"
    if ("NewView", view) in sealed:
        return f"has called for view {view}, and waits for Ask from {who}"
    return f"is in view {view}, and waits for its block from {who}"


def waits_of(trace: Trace, replica: Replica, lost: list[Send]) -> list[str]:
    """What a replica did last and waited for, and what else held it up."""
    journal, out = trace.journals[replica.me], [doing(trace, replica, lost)]
    if replica.view == trace.views:
        out.append(f"view {replica.view} is the last of the plan")
    fetches = [
        send for entry in journal for send in entry.sends
        if send.kind == "Fetch" and send.statement[1:] not in {FIRST_BLOCK, *replica.store}
    ]
    if fetches:
        out.append(f"lacks a block for which it asked replica {fetches[-1].to}")
    arrived = {tx for entry in journal for tx in entry.txs}
    if never := [tx for tx in trace.arrivals[replica.me] if tx not in arrived]:
        out.append(
            f"{len(never)} of its transactions had not arrived, as their turn had not come: "
            + some(map(tx_text, never), 4)
        )
    if replica.finals.missing:
        view, (a, b) = replica.finals.missing
        out.append(
            f"the proposal of view {view} lacks the edge between {tx_text(a)} and {tx_text(b)}, "
            "and everything after it waits"
        )
    return out


def what_of(entry: Entry) -> str:
    message = entry.message
    if message is None:
        return "bytes that are no message"
    of_view = "" if message.kind in ("Fetch", "Give") else f" of view {message.view}"
    return message.kind + of_view


def print_replica(trace: Trace, replica: Replica) -> None:
    """The reasons, views, commits and batches of one replica."""
    me, journal = replica.me, trace.journals[replica.me]
    held = {tx for batch in trace.batches[me] for tx in batch}
    reasons = Counter(entry.reason for entry in journal)
    counts = ", ".join(f"{reason} {reasons[reason]}" for reason in REASONS if reasons[reason])
    print(f"\nreplica {me}: {len(journal)} entries: {counts}")
    views = " ".join(f"{entry.view}@{entry.turn}" for entry in journal if entry.moved.view)
    commits = " ".join(f"{entry.commit}@{entry.turn}" for entry in journal if entry.moved.commit)
    print("  views:   " + (views or "0"))
    print("  commits: " + (commits or "none"))
    lacks = some(map(tx_text, sorted(trace.due - held)), 4)
    more = f"; of {len(trace.due)} due it lacks {lacks}" if lacks else ""
    print(f"  batches: {len(trace.batches[me])}, {len(held)} transactions{more}")
    head = (replica.view, replica.view_of(replica.commit))
    if trace.heads[me] != head or trace.batches[me] != replica.finals.batches:
        print("  ITS HEAD OR BATCHES ARE NOT WHAT ITS JOURNAL SHOWS: try `themis audit`")


def print_messages(trace: Trace, order: Order) -> None:
    """What was lost, late, on its way at the end, or refused."""
    lost, pending = lost_and_pending(trace, order)
    refused = [e for e in order.entries if e.message_is_refused()]
    lists = {
        "lost": [f"{send}, sent at turn {send.sent}" for send in lost],
        "late": [f"{send}, at turn {send.turn}" for send in late_of(trace, order)],
        "on their way at the end": [str(send) for send in pending],
        "refused": [
            f"{what_of(e)} from {e.sender} to {e.replica} at turn {e.turn}: {e.reason}"
            for e in refused
        ],
    }
    print()
    for name, items in lists.items():
        print(f"{name}: {len(items)}")
        for text in items[:MAX_LINES]:
            print("  " + text)
        if len(items) > MAX_LINES:
            print(f"  and {len(items) - MAX_LINES} more")


def print_report(trace: Trace, order: Order, replicas: dict[int, Replica]) -> None:
    height = HEIGHTS.get(trace.height, "?")
    print(
        f"n={trace.n} f={trace.f} gamma={trace.p}/{trace.q} views={trace.views} "
        f"seed={trace.seed} height={height} ticks={trace.ticks} turns={trace.turns} "
        f"faulty: {some(trace.faulty) or 'none'}"
    )
    if order.turn != trace.turns:
        print(
            f"turns below are approximate: {order.turn} were found, since a trace does not hold "
            "what faulty replicas received"
        )
    for r in trace.honest:
        print_replica(trace, replicas[r])
    print_messages(trace, order)
    if trace.is_done():
        print("\nend: every due transaction is in every honest replica's batches")
        return
    seems = "" if trace.max_turns is not None else "it seems "
    if may_be_on_the_way(trace, order):
        cause = "with messages on their way: the last turn was reached"
    else:
        cause = "with nothing on its way: no tick was left"
    print(f"\nend: stalled, {seems}{cause}")
    lost, _ = lost_and_pending(trace, order)
    for r in trace.honest:
        print(f"  replica {r} " + "; ".join(waits_of(trace, replicas[r], lost)))
