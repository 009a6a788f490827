'use strict';
// Draws the events of the random steps, as conformance/drawing.py does. Servers suspect each other in rounds, messages
// arrive late, twice or never, and servers are cut off for a while. Everything else moves towards a decision: messages
// are delivered, and what was decided is executed. The events come from the trace. The program decides whether a
// suspicion is accepted.

// In percent of the events or messages, except `burst`, which is a number of commands.
const RATES = { submissions: 30, burst: 2, suspicion: 2, retry: 10, loss: 3, repeats: 3, delay: 6, cuts: 1 };
// A late message is on its way for fewer events than this.
const LATE = 30;
// With more useful messages on their way to a server than this, on average, no command is submitted.
const CROWDED = 4;

// A random number generator for the random steps. Only the page uses it.
function diceOf(seed) {
  let state = seed;
  return sides => {
    state = (state + 0x6d2b79f5) | 0;
    let word = Math.imul(state ^ (state >>> 15), 1 | state);
    word = (word + Math.imul(word ^ (word >>> 7), 61 | word)) ^ word;
    return ((word ^ (word >>> 14)) >>> 0) % sides;
  };
}

// The key of a message on its way to a server. The number of a server is less than 8. A key is not a text, because a
// long schedule has many of them.
const keyOfPair = (number, server) => 8 * number + server;

// Whether a time is over at which a message or a server is late or cut off. It may be undefined.
const isOver = (end, time) => end === undefined || end <= time;

class Drawing {
  // `isAccepted` tells whether the program accepts an event after a schedule.
  constructor(dice, isAccepted) {
    Object.assign(this, { dice, isAccepted, plot: null, victim: null, hasFought: false });
    Object.assign(this, { cuts: new Map(), late: new Map() });
  }

  chance(rate) { return this.dice(100) < rate; }
  pick(values) { return values[this.dice(values.length)]; }

  // Takes over a schedule and its trace. The next events are drawn from them.
  look(schedule, trace) {
    const { servers } = schedule;
    Object.assign(this, { prefix: schedule, added: [], used: null, trace, servers, isFresh: true });
    this.all = Array.from({ length: servers }, (_, server) => server);
    this.majority = Math.floor(servers / 2) + 1;
    this.onWay = trace.unheard.filter(pair => this.isUseful(pair));
    this.next = trace.closing.map(({ next }) => next);
    this.waiting = trace.closing.map(({ waiting }) => waiting.length);
    this.sent ??= trace.messages.length;
    for (; this.sent < trace.messages.length; this.sent += 1) this.delay(trace.messages[this.sent]);
  }

  get time() { return this.prefix.events.length + this.added.length; }

  // The schedule with the drawn events.
  get schedule() { return withEvents(this.prefix, this.added); }

  // Nothing is disturbed before a command was executed, so a new page soon shows how that happens.
  get isCalm() { return this.trace.histories.every(ids => ids.length === 0); }

  delay({ number, to }) {
    if (this.isCalm) return;
    for (const server of to === null ? this.all : [to]) {
      if (this.chance(RATES.delay)) this.late.set(keyOfPair(number, server), this.time + this.dice(LATE));
    }
  }

  // Draws the next event. Until the next `look`, messages of the drawn events are not known.
  draw() {
    const repeats = !this.isCalm && this.chance(RATES.repeats);
    const event = (repeats && this.repeat()) || (this.chance(92) && this.goOn()) || this.disturb() || this.settle()
      || this.submit(this.dice(this.servers));
    this.added.push(event);
  }

  goOn() {
    const { value, done } = this.plot?.next() ?? { done: true };
    if (done) this.plot = null;
    return value ?? null;
  }

  // The first disturbance is a suspicion.
  disturb() {
    if (this.trace.commands.size === 0 && this.added.length === 0) this.plot = this.burst();
    if (this.isCalm) return this.goOn();
    if (this.chance(RATES.cuts)) this.cuts.set(this.victim = this.dice(this.servers), this.time + 10 + this.dice(20));
    if (!this.hasFought || this.chance(RATES.suspicion)) this.plot = this.fight();
    else if (this.chance(RATES.submissions) && this.onWay.length <= CROWDED * this.servers) this.plot = this.burst();
    else if (this.chance(RATES.retry)) return this.retry();
    return this.goOn();
  }

  settle() {
    return (this.chance(80) && this.execute()) || this.deliver() || this.execute() || this.retry()
      || (this.chance(70) && this.unblock()) || null;
  }

  // ---- commands

  submit(server) {
    this.used ??= identitiesIn(this.prefix);
    for (const id of identitiesIn({ events: this.added })) this.used.add(id);
    return `submit ${server} ${commandFor(this.used, server)}`;
  }

  * burst(server = this.dice(this.servers)) {
    for (let left = 1 + this.dice(RATES.burst); left > 0; left -= 1) yield this.submit(server);
  }

  isLearned(server, instance) { return this.trace.slot(server, instance).learned !== null; }

  execute() {
    const ready = this.all.filter(server => this.isLearned(server, this.next[server]));
    if (ready.length === 0) return null;
    const server = this.pick(ready);
    this.next[server] += 1;
    return `execute ${server}`;
  }

  retry() {
    const ready = this.all.filter(server => this.waiting[server] > 0);
    if (ready.length === 0) return null;
    const server = this.pick(ready);
    this.waiting[server] -= 1;
    return `retry ${server}`;
  }

  // ---- suspicions

  // The suspicion, if the program accepts it after the events so far.
  suspicion(server, other) {
    const event = `suspect ${server} ${other}`;
    return this.isAccepted(this.schedule, event) ? event : null;
  }

  // A suspicion of the server that owns the instance for which another server waits.
  unblock() {
    const server = this.dice(this.servers), owner = this.next[server] % this.servers;
    return owner === server ? null : this.suspicion(server, owner);
  }

  // Rounds of suspicions of one server, usually the same one as before. Chance decides how far a round gets, so votes
  // and promises of several ballots exist together.
  * fight() {
    this.hasFought = true;
    if (this.victim === null || this.chance(25)) this.victim = this.dice(this.servers);
    const victim = this.victim % this.servers, others = this.all.filter(server => server !== victim);
    if (others.length === 0) return;
    if (this.chance(60)) yield* this.burst(victim);
    for (let left = this.pick([1, 1, 2, 3]); left > 0; left -= 1) {
      const first = yield* this.messagesSent(), event = this.suspicion(this.pick(others), victim);
      if (!event) continue;
      yield event;
      yield* this.takeRound(first);
    }
  }

  // The number of messages. In the meantime other events are drawn if the trace is not new.
  * messagesSent() {
    this.isFresh = false;
    while (!this.isFresh) yield null;
    return this.trace.messages.length;
  }

  // Delivers what follows from the messages of a suspicion, usually until a majority learned the value.
  * takeRound(first) {
    const isWhole = this.chance(60);
    for (const kind of ['Prepare', 'Promise', 'Propose', 'Accepted', 'Learn']) {
      yield* this.messagesSent();
      if (kind === 'Accepted' && !isWhole && this.chance(50)) return;
      const instance = this.trace.messages[first]?.instance;
      const isOfRound = message => message?.kind === kind && message.instance === instance && message.number >= first;
      const pairs = this.onWay.filter(({ number }) => isOfRound(this.trace.messages[number]));
      const some = isWhole ? pairs : pairs.filter(() => this.chance(70));
      for (const pair of some.slice(0, kind === 'Learn' ? this.servers : this.majority)) yield this.handOver(pair);
    }
  }

  // ---- messages

  // Delivers a useful message. Usually a server waits for it, or it is the oldest one.
  deliver() {
    const reaches = pair => this.reaches(pair), oldest = this.onWay.find(reaches);
    if (!oldest) return null;
    if (this.chance(20)) return this.handOver(this.pick(this.onWay.filter(reaches)));
    const ahead = this.all.reduce((one, other) => (this.next[other] > this.next[one] ? other : one));
    return this.handOver(this.onWay.findLast(pair => this.isAwaited(pair, ahead) && reaches(pair)) ?? oldest);
  }

  // Whether the message helps the server `ahead`, which executed most, to learn its next instance. The messages of that
  // instance decide it, or a Skip of its owner does. The owner sends a Skip once it hears a Suggest at a later instance.
  isAwaited({ number, to }, ahead) {
    const { kind, from, instance } = this.trace.messages[number], next = this.next[ahead], owner = next % this.servers;
    if (kind === 'Skip') return to === ahead && from === owner;
    if (kind === 'Suggest' && instance > next) return to === owner;
    return instance === next && (kind !== 'Learn' || to === ahead);
  }

  // Whether the message is neither late nor between servers of which one is cut off.
  reaches({ number, to }) {
    const { time, cuts } = this, { from } = this.trace.messages[number];
    return isOver(this.late.get(keyOfPair(number, to)), time) && isOver(cuts.get(from), time)
      && isOver(cuts.get(to), time);
  }

  // Whether the receiver of a message has not learned its instance yet, or may need the message nevertheless.
  isUseful({ number, to }) {
    const { kind, instance } = this.trace.messages[number];
    return ['Suggest', 'Skip'].includes(kind) || !this.isLearned(to, instance)
      || (kind === 'Learn' && instance % this.servers === to);
  }

  handOver({ number, to }) {
    this.onWay = this.onWay.filter(pair => pair.number !== number || pair.to !== to);
    return `${!this.isCalm && this.chance(RATES.loss) ? 'lose' : 'deliver'} ${number} ${to}`;
  }

  // Delivers a recent message again.
  repeat() {
    const isHeard = ({ text, refusal }) =>
      text.startsWith('deliver ') && !refusal && !this.trace.lost.has(text.slice('deliver '.length));
    const heard = this.trace.events.slice(-60).filter(isHeard);
    return heard.length > 0 ? this.pick(heard).text : null;
  }
}
