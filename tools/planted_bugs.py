"""Bugs that tools/plant-host-bugs plants into the engine of the host."""

from dataclasses import dataclass


@dataclass(frozen=True)
class Bug:
    """What is wrong, and the edit that makes it so.

    The old text is one expression, or statements up to their semicolon, and stands once in its
    file. In a new text that has it, PLANTED is whether the bug is on. `words` tell the simulator
    how to show the bug, and `seed` is the first one that does, as far as that was looked for.
    """

    name: str
    file: str
    old: str
    new: str
    words: str = ""
    seed: int = 0


# What the simulator finds.
BUGS = [
    Bug("a tick is not logged", "turns.rs",
        "records.extend(self.core.core.prepare(event)?);",
        "let record = self.core.core.prepare(event)?; "
        "if !matches!(event, Event::Tick(_)) { records.extend(record); }", seed=1),
    Bug("records are logged in the wrong order", "turns.rs",
        "records.extend(self.core.core.prepare(event)?);",
        "records = [self.core.core.prepare(event)?, records].concat();", seed=1),
    Bug("an event that has to be prepared again is dropped", "turns.rs",
        "self.turns.again.push(event);", "drop(event);", "--scenario uneven", seed=1),
    Bug("a restart forgets what has arrived", "engine.rs",
        "self.intake.restore(self.core.core.desk(), &txs)?", "()", seed=3),
    Bug("a restart reports one batch too few", "engine.rs",
        "self.core.core.batch_count()?", "self.core.core.batch_count()?.saturating_sub(1)",
        seed=1),
    Bug("early Asks are delivered", "guards/asks.rs",
        "wire::asked_view(data).is_some_and(|it| it > known_view)", "false", "--deeds leap",
        seed=2),
    Bug("the greatest view heard is believed", "peers.rs",
        "said.get(self.f)", "said.first()", "--deeds boast", seed=1),
    Bug("a replica that is ahead ticks all the same", "pacemaker.rs",
        "peers.count_at(own.view) < self.place.quorum()", "peers.count_at(own.view) == 0",
        seed=21),
    Bug("it ticks without a quorum", "pacemaker.rs",
        "peers.count_taking_part(own, now) >= self.place.quorum()",
        "peers.count_taking_part(own, now) >= 1", "--scenario outage", seed=2),
    Bug("a silent leader is waited for, and no tick comes", "pacemaker.rs",
        "(self.moved_at, self.has_ticked) = (now, true);",
        "if own.view > 3 { return None; } (self.moved_at, self.has_ticked) = (now, true);",
        seed=4),
    Bug("a replica that fell behind asks for no blocks", "catch_up.rs",
        "behind.ahead.is_empty()", "behind.reached > 0", seed=3),
    Bug("blocks are given newest first", "receive.rs",
        "self.core.core.give(above, position)?",
        "self.core.core.give(above, count - 1 - position)?", "--scenario away", seed=1),
    Bug("a budget is never filled again", "budget.rs",
        "now.since(at).as_secs_f64() * self.rate", "now.since(at).as_secs_f64() * 0.0", seed=2),
    Bug("what is final stays among what waits", "intake/mod.rs",
        "desk.settle(txs)?;", "", seed=1),
    Bug("receipts that were lost are not told again", "gossip.rs",
        "self.tell_again()?;", "", seed=8),
    Bug("what a block names does not arrive", "intake/mod.rs",
        "self.receiving(desk, |desk| desk.accepted(data))?;", "", "--burst 3000", seed=1),
    Bug("a client hears ok before its transaction is durable", "receive.rs",
        "matches!(standing, Standing::Arrived | Standing::Final)", "standing != Standing::Unknown",
        seed=1),
    Bug("a held proposal is never released", "hold.rs",
        "self.is_needed || wish.is_wanted && wish.is_due",
        "self.is_needed || wish.is_wanted && wish.idle_views > 5", seed=1),
    Bug("messages to itself are lost in a group", "turns.rs",
        "std::mem::take(&mut self.turns.to_self).into_iter();",
        "std::mem::take(&mut self.turns.to_self).into_iter().skip(usize::from(PLANTED));", seed=1),
    Bug("receipts are stamped before the clocks of peers were heard", "intake/mod.rs",
        "place.quorum() <= 1", "true", seed=2),
    Bug("receipts of a peer are heard in the reverse order", "intake/receiving.rs",
        "        for it in receipts {",
        "        let mut receipts = receipts.to_vec();\n"
        "        if PLANTED { receipts.reverse(); }\n        for it in &receipts {", seed=1),
    Bug("a vote that came before its block is lost", "follow.rs",
        "self.orphans.keep(it);", "", "--scenario uneven", seed=14),
    Bug("votes are taken for those of another leader", "guards/fit.rs",
        "place.leader_of(view + 1)", "place.leader_of(view)", seed=1),
    Bug("a refusal without a fault costs its peer nothing", "guards/allowance.rs",
        "self.wasted.spend(seals_in(size) as f64, now);", "", "--deeds waste", seed=3),
    Bug("what is carried over waits for admission", "of_sessions.rs",
        "self.first = carried;", "", "--sessions 3", seed=1),
    Bug("what is carried over is not stored", "sessions/change.rs",
        "self.carried_from(session)", "Vec::new()", "--sessions 3", seed=1),
    Bug("void batches count", "engine.rs",
        "            if self.is_cut() {\n                break;",
        "            if self.is_cut() && !PLANTED {\n                break;", "--sessions 3",
        seed=1),
    Bug("one peer's word brings the marker", "sessions/running.rs",
        "self.marked_by.count_ones() > f", "self.marked_by != 0",
        "--sessions 3 --deeds early-marker", seed=103),
    Bug("a key is taken from any peer", "sessions/running.rs",
        "if replica == peer && !", "if (replica == peer || PLANTED) && !",
        "--sessions 3 --deeds others-keys", seed=1),
    Bug("a replica that lost its store sits nothing out", "sessions/returning.rs",
        "session > through", "true", "--sessions 3 --lose-store", seed=1),
    Bug("what waits at a cut is forgotten", "sessions/change.rs",
        "engine.resume(&kept, clients)", "engine.resume(&[], clients)", "--sessions 3", seed=1),
    Bug("an end that is stuck stays so", "intake/mod.rs",
        "self.is_ending && !is_stuck", "self.is_ending", "--sessions 3", seed=138),
]

# What the simulator does not find, or only by luck: a test of the engine does.
HIDDEN = [
    Bug("a peer is not told again on a new connection", "gossip.rs",
        "self.last[peer as usize] = 0;", ""),
    Bug("views end before blocks show what is final", "hold.rs",
        "self.commit == 0", "self.commit < u32::MAX"),
    Bug("something arrives after the cut", "turns.rs",
        "        if self.is_cut() {\n            return Ok(Vec::new());",
        "        if self.is_cut() && !PLANTED {\n            return Ok(Vec::new());"),
    Bug("the last key that is shown counts", "sessions/keys.rs",
        "parts[part].get_or_insert(payload);", "parts[part] = Some(payload);"),
    Bug("one peer's history is believed", "sessions/behind.rs",
        "count(it) > self.f", "count(it) > 0"),
]

# Guards that are turned off: what finds each is a test of the engine.
GUARDS = [
    Bug("statuses have no budget", "receive.rs",
        "self.allowances[at].takes_status(now)", "true"),
    Bug("receipts have no budget", "receive.rs",
        "self.allowances[at].takes_receipts(receipts.len(), now)", "true"),
    Bug("refusals have no budget", "follow.rs",
        "self.allowances[from as usize].refused(kind, reason, data.len(), now);", ""),
    Bug("seals of refused messages have no budget", "guards/allowance.rs",
        "self.wasted.spend(seals_in(size) as f64, now);", ""),
    Bug("the core gets what no honest replica sends", "receive.rs",
        "!is_fit(&self.place, peer, &data)", "false"),
    Bug("messages have no greatest size", "guards/fit.rs",
        "data.len() > wire::max_size(kind, place.n)", "data.len() > (1 << 30)"),
    Bug("messages are taken by peer, and not as they came", "inbox.rs",
        "Some((it.front()?.number, peer))", "Some((0 * it.front()?.number, peer))"),
    Bug("a peer may fill a group", "inbox.rs",
        "if is_slowed(peer) { 0 } else { MAX_OF_PEER }", "if is_slowed(peer) { 0 } else { 32 }"),
    Bug("a peer that is slowed is heard", "inbox.rs",
        "if is_slowed(peer) { 0 } else { MAX_OF_PEER }", "is_slowed(peer); MAX_OF_PEER"),
    Bug("a vote that came before its block is lost", "follow.rs",
        "self.orphans.keep(it);", ""),
    Bug("what a proposal claims is believed", "turns.rs",
        "self.core.core.would_change(it)?", "true"),
    Bug("early Asks are delivered", "receive.rs",
        "self.options.hold_asks", "false"),
    Bug("given blocks have no bound", "guards/given.rs",
        "self.stored[peer as usize] < self.views", "true"),
    Bug("blocks that nobody asked for are taken", "receive.rs",
        "!self.catch_up.expects(peer)", "false"),
    Bug("proposed blocks are taken again", "follow.rs",
        "wire::proposed_block(&it.data).into_iter().for_each(|it| self.given.know(it));", ""),
    Bug("Fetches have no budget", "receive.rs",
        "self.allowances[at].fetches.take(1.0, now)", "true"),
    Bug("requests for blocks have no budget", "receive.rs",
        "let mut is_within = self.allowances[at].requests.take(1.0, now);",
        "let mut is_within = PLANTED || self.allowances[at].requests.take(1.0, now);"),
    Bug("clients have no bound", "receive.rs",
        "self.intake.of_clients() + txs.len() > self.options.max_waiting", "false"),
    Bug("receipts at a start have no bound", "intake/receiving.rs",
        "self.early_of(|it| it != self.place.me) < MAX_EARLY", "true"),
    Bug("views are not paced", "engine.rs",
        "self.pace.is_due(waiting, now)", "true"),
    Bug("a held proposal waits for the regular look", "engine.rs",
        "self.release_at.map_or(regular, |at| at.min(regular))", "regular"),
    Bug("each tick lengthens the timeout", "pacemaker.rs",
        "patience >= self.timeout", "true"),
    Bug("a timeout is too short for a view like the last one", "pacemaker.rs",
        "(self.last_view * LIKE_THE_LAST).min(self.most)", "Duration::ZERO"),
    Bug("more arrives while views fail", "turns.rs",
        "!self.are_views_failing()", "true"),
]
