// The driver of one run: the seats of a monitor, a thread on each, and who moves next. It says who moves; the kernel
// answers what a move does, and who goes on after it.
// @ts-check
import { Actor, actorsOf } from './actor.js';
import { MAY_WAKE_UNASKED, WISHES, modeOf } from './kinds.js';
import { BUDGET, INSIDE, MOST_CONDITIONS, MOST_FLAGS, NOT_OF_KIND, SPENT } from './kernel.js';
import { NewName, Over, inWords } from './over.js';

/** @typedef {import('./scene.js').Call} Call */
/** @typedef {import('./scene.js').Scene} Scene */
/** @typedef {import('./kernel.js').Kernel} Kernel */
/** How a scene is played: over which kernel, under which kind, and with how many wake-ups that nobody asked for. */
/** @typedef {{kernel: Kernel, make: () => Scene, kind: string, unasked: number}} Way */
/** Who may move, and with which wish; for nobody it is the condition.
 * @typedef {[Actor, string]} Option */

export class Stage {
  /** @param {Way} way @param {string[]} names the conditions that are known so far */
  constructor({ kernel, make, kind, unasked }, names) {
    this.kernel = kernel;
    this.kind = kind;
    this.names = names;
    this.mode = modeOf(kind);
    this.isAutomatic = this.mode === 'automatic';
    this.scene = make();
    this.actors = actorsOf(this.scene.programs);
    /** @type {Record<string, Actor[]>} */
    this.queues = Object.assign(Object.create(null), Object.fromEntries(names.map((name) => [name, []])));
    /** What the automatic kinds wait for.
     * @type {Map<string, () => unknown>} */
    this.tests = new Map();
    /** What happened: whose seat, and words.
     * @type {[number, string][]} */
    this.story = [];
    this.flags = 0;
    this.told = '';
    /** The data after the last step of a program, which alone changes them.
     * @type {string[]} */
    this.data = [];
    // a wake-up that nobody asked for is a signal by one more seat
    this.nobody = new Actor('nobody', this.actors.length, null, false);
    this.unasked = MAY_WAKE_UNASKED.includes(kind) ? unasked : 0;
    this.wasUnasked = false;
    /** Whether what is played was played before, and is tested no more. */
    this.isKnown = false;
    this.scene.waiting = (name) => this.waiting(name).length;
    const [conditions, flags] = this.isAutomatic ? [0, names.length] : [names.length, 0];
    kernel.open({ kind, seats: this.actors.length + 2, conditions, flags });
  }

  /** @param {number} i @returns {Actor} */
  seat(i) {
    return this.actors[i] || this.nobody;
  }

  /** Who waits on a condition.
   * @param {string} name @returns {Actor[]} */
  waiting(name) {
    if (!this.isAutomatic) return this.queues[name] || [];
    return this.actors.filter((it) => it.place === 'condition' && it.call().name === name);
  }

  /** Runs each program up to its first call. */
  begin() {
    this.data = this.variables(this.actors[0]);
    this.actors.forEach((it) => this.advance(it));
  }

  /** Runs a program up to its next call. `isOut`: what follows a signal that was its way out.
   * @param {Actor} actor @param {boolean} [isOut] */
  advance(actor, isOut = false) {
    if (this.isKnown && !this.scene.isKept) return this.arrive(actor, this.step(actor));
    const was = this.data;
    if (actor.keeps) actor.seen.push(`${was.join()} ${this.scene.identities}`);
    const call = this.step(actor), isOutside = actor.place === 'outside' && !isOut;
    this.data = this.variables(actor);
    const names = isOutside ? this.data.filter((it, i) => it !== was[i]).map((it) => it.split(' ')[0]).join(', ') : '';
    if (names) {
      const where = call ? `line ${call.line}` : 'its end';
      throw new Over('wrong', actor.name, `changes ${names} outside the monitor, before ${where}`);
    }
    return this.arrive(actor, call);
  }

  /** The actor is before that call, or through.
   * @param {Actor} actor @param {Call | null} call */
  arrive(actor, call) {
    actor.next = call;
    if (!call) actor.place = 'done';
    else if (call.verb === 'enter') actor.site = call.site;
  }

  /** @param {Actor} actor @returns {Call | null} */
  step(actor) {
    try {
      const step = /** @type {Generator<Call, void, void>} */ (actor.steps).next();
      return step.done ? null : step.value;
    } catch (fault) {
      throw new Over('wrong', actor.name, `${inWords(fault)} (line ${this.scene.line})`);
    }
  }

  /** @param {Actor} actor @returns {string[]} */
  variables(actor) {
    try {
      return this.scene.variables();
    } catch (fault) {
      throw new Over('wrong', actor.name, `${inWords(fault)} (line ${this.scene.last})`);
    }
  }

  /** Who may move next, and with which wish. A call that gives nothing up is made at once: who arrives before it may as
   * well arrive after it. Each release is offered every wish, and the search merges what comes to the same.
   * @returns {Option[]} */
  options() {
    const inside = this.actors.find((it) => it.place === 'inside');
    if (inside && !this.givesUp(inside)) return [[inside, '']];
    /** @type {Option[]} */
    const found = this.actors.filter((it) => it.place === 'outside').map((it) => [it, '']);
    if (inside) return [...found, ...WISHES.map((wish) => /** @type {Option} */ ([inside, wish]))];
    return found.length ? [...found, ...this.wakes()] : found;
  }

  /** The wake-ups that nobody asked for. Nothing may count on one: where only that could help, the run is stuck.
   * @returns {Option[]} */
  wakes() {
    const isTaken = this.actors.some((it) => it.waits() && it.place !== 'condition');
    if (isTaken || !this.unasked) return [];
    return this.names.filter((name) => this.queues[name].length).map((name) => [this.nobody, name]);
  }

  /** Whether its next call may let somebody else go on.
   * @param {Actor} actor @returns {boolean} */
  givesUp(actor) {
    const { verb, name } = actor.call();
    if (verb === 'signal_all' || (verb === 'signal' && this.isAutomatic)) return false;
    if (verb !== 'signal' || this.mode === 'immediate return') return true;
    return this.mode !== 'non-blocking' && (this.queues[name] || []).length > 0;
  }

  /** @param {Actor} actor @param {string} wish */
  move(actor, wish) {
    if (actor === this.nobody) this.wake(wish);
    else this.make(actor, actor.call(), wish ? WISHES.indexOf(wish) : 1);
    this.actors.forEach((it) => {
      if (it.waits() && this.kernel.comesIn(it.i)) this.goOn(it);
    });
  }

  /** @param {Actor} actor @param {Call} call @param {number} wish */
  make(actor, call, wish) {
    if (call.verb === 'enter') return this.enter(actor);
    if (call.verb === 'leave') return this.leave(actor, call, wish);
    if (call.verb === 'wait') return this.isAutomatic ? this.waitUntil(actor, call, wish) : this.wait(actor, call, wish);
    if (call.verb === 'signal_all') return this.signalAll(actor, call);
    return this.signal(actor, call, wish);
  }

  /** A seat that has the turn comes in.
   * @param {Actor} actor */
  goOn(actor) {
    this.tell(actor, actor.place === 'entry' ? 'comes in' : 'goes on');
    if (actor.place === 'condition' && actor.call().isOwn) this.tests.delete(actor.on);
    actor.place = 'inside';
    this.advance(actor);
  }

  /** Asks the kernel. Below 0 it refuses.
   * @param {string} call @param {Actor} actor @param {any[]} more */
  ask(call, actor, ...more) {
    const answer = this.kernel.calls[`monk_k_${call}`](this.kernel.at(actor.i), ...more);
    if (answer >= 0) return answer;
    const { verb, name, line } = actor.call();
    if (answer === NOT_OF_KIND) throw new Over('no such call', actor.name, `${this.kind} has no ${verb} (${name})`);
    if (answer === SPENT) throw new Over('stuck', actor.name, `goes on and on: its ${BUDGET} events are spent`);
    const isLate = this.mode === 'immediate return' && actor.place === 'outside';
    throw new Over('wrong', actor.name, isLate
      ? `its signal was its way out under ${this.kind}: its ${verb} in line ${line} comes too late`
      : `${verb} is refused: it is ${actor.place} (line ${line})`);
  }

  /** @param {Actor} actor @param {string} words */
  tell(actor, words) {
    this.story.push([actor.i, words]);
  }

  /** The number of a condition or a test.
   * @param {Actor} actor @param {string} name @returns {number} */
  number(actor, name) {
    const at = this.names.indexOf(name), most = this.isAutomatic ? MOST_FLAGS : MOST_CONDITIONS;
    if (at >= 0) return at;
    if (this.names.length === most) {
      throw new Over('wrong', actor.name, `${name} is one condition too many: a monitor has ${most} under ${this.kind}`);
    }
    this.names.push(name);
    throw new NewName();
  }

  /** A wake-up that nobody asked for.
   * @param {string} name */
  wake(name) {
    const { nobody } = this, served = this.queues[name].slice(0, 1);
    nobody.next = { verb: 'signal', name, line: 0, site: -1 };
    this.unasked -= 1;
    this.wasUnasked = true;
    this.ask('enter', nobody);
    this.tell(nobody, 'comes in');
    this.ask('start_signal', nobody, this.number(nobody, name), 1, this.kernel.granted);
    this.serve(nobody, nobody.next, served, '');
    this.ask('leave', nobody, 1, this.kernel.granted);
    this.tell(nobody, 'leaves');
  }

  /** @param {Actor} actor */
  enter(actor) {
    this.ask('arrive', actor);
    actor.place = 'entry';
  }

  /** @param {Actor} actor @param {Call} call @param {number} wish */
  leave(actor, call, wish) {
    this.beforeRelease(actor, call);
    this.ask('leave', actor, wish, this.kernel.granted);
    actor.place = 'outside';
    this.tell(actor, 'leaves');
    this.advance(actor);
  }

  /** @param {Actor} actor @param {Call} call @param {number} wish */
  wait(actor, call, wish) {
    const number = this.number(actor, call.name);
    this.beforeRelease(actor, call);
    this.ask('start_wait', actor, number, wish, this.kernel.granted);
    this.queues[call.name].push(actor);
    [actor.place, actor.on] = ['condition', call.name];
    this.tell(actor, `waits on ${call.name}`);
  }

  /** Automatic kinds: a test for each wait, and for each thread if it names variables of the thread's own.
   * @param {Actor} actor @param {Call} call @param {number} wish */
  waitUntil(actor, call, wish) {
    const name = testOf(actor, call), number = this.number(actor, name);
    this.beforeRelease(actor, call);
    const goesOn = this.ask('start_wait_until', actor, number, wish, this.kernel.granted) === INSIDE;
    this.tell(actor, `waits until ${name}`);
    [actor.place, actor.on] = [goesOn ? 'inside' : 'condition', name];
    if (goesOn) this.advance(actor);
  }

  /** @param {Actor} actor @param {Call} call */
  signalAll(actor, call) {
    const number = this.number(actor, call.name);
    if (!this.isAutomatic) {
      this.ask('broadcast', actor, number);
      this.serve(actor, call, this.queues[call.name].slice(), '');
    }
    this.advance(actor);
  }

  /** @param {Actor} actor @param {Call} call @param {number} wish */
  signal(actor, call, wish) {
    const number = this.number(actor, call.name);
    if (this.isAutomatic) return this.advance(actor);
    const served = this.queues[call.name].slice(0, 1);
    if (this.givesUp(actor)) this.beforeRelease(actor, call);
    if (this.mode === 'immediate return') return this.signalAndLeave(actor, call, number, wish);
    if (this.ask('start_signal', actor, number, wish, this.kernel.granted) === INSIDE) {
      this.serve(actor, call, served, '');
      return this.advance(actor);
    }
    actor.place = 'signaller';
    return this.serve(actor, call, served, '; and gives way');
  }

  /** What follows up to the program's leave is outside already, and that leave isn't made.
   * @param {Actor} actor @param {Call} call @param {number} number @param {number} wish */
  signalAndLeave(actor, call, number, wish) {
    this.ask('signal_leave', actor, number, wish, this.kernel.granted);
    actor.place = 'outside';
    this.serve(actor, call, this.queues[call.name].slice(0, 1), '; and leaves');
    const was = this.data.join();
    this.advance(actor, true);
    if (!actor.next || actor.next.verb !== 'leave') return;
    if (this.data.join() !== was) {
      const place = `before line ${actor.next.line}, after its signal`;
      throw new Over('wrong', actor.name, `changes the data ${place}, which was the way out under ${this.kind}`);
    }
    this.advance(actor);
  }

  /** @param {Actor} actor @param {Call} call @param {Actor[]} served @param {string} then */
  serve(actor, call, served, then) {
    const who = served.length ? `: ${served.map((it) => it.name).join(', ')}` : ', where nobody waits';
    this.tell(actor, `signals ${call.name}${call.verb === 'signal_all' ? ' to all' : ''}${who}${then}`);
    for (const it of served) {
      const queue = this.queues[call.name];
      queue.splice(queue.indexOf(it), 1);
      it.place = 'waiter';
    }
  }

  /** What must hold, and what is told, before the monitor is given up.
   * @param {Actor} actor @param {Call} call */
  beforeRelease(actor, call) {
    const { tests } = this.scene;
    if (!this.isKnown) for (const { line, test } of tests) this.test(test, `the invariant of line ${line}`, actor.name);
    if (this.isAutomatic) this.tellFlags(actor, call);
  }

  /** The tests are judged, and given to the kernel as flags.
   * @param {Actor} actor @param {Call} call */
  tellFlags(actor, call) {
    if (call.until) this.tests.set(testOf(actor, call), call.until);
    if (call.verb === 'wait' && !this.tests.has(testOf(actor, call))) {
      const what = `write while (..) wait(${call.name}); in line ${call.line}`;
      throw new Over('no such call', actor.name, `${this.kind} has no signals: ${what}`);
    }
    const held = this.names.filter((name) => this.tests.has(name) && this.answer(name, actor));
    const flags = held.reduce((sum, name) => sum + 2 ** this.names.indexOf(name), 0);
    if (flags === this.flags) return;
    this.flags = flags;
    this.ask('set_flags', actor, flags);
    this.told = `tells: ${held.join(', ') || 'nothing'} holds`;
    this.tell(actor, this.told);
  }

  /** @param {string} name @param {Actor} actor @returns {boolean} */
  answer(name, actor) {
    try {
      return Boolean(/** @type {() => unknown} */ (this.tests.get(name))());
    } catch (fault) {
      throw new Over('wrong', actor.name, `the test of ${name}: ${inWords(fault)}`);
    }
  }

  /** @param {() => unknown} test @param {string} what @param {string} who */
  test(test, what, who) {
    let holds = false;
    try {
      holds = Boolean(test());
    } catch (fault) {
      throw new Over('wrong', who, `${what}: ${inWords(fault)}`);
    }
    if (!holds) throw new Over('wrong', who, `${what} doesn't hold`);
  }

  /** Nobody can move: all must be through, or allowed to stay waiting. */
  testEnd() {
    const waits = this.actors.filter((it) => it.waits() && !this.scene.mayWait.has(it.name));
    if (waits.length) {
      const where = waits.map((it) => `${it.name} waits on ${it.call().name || it.place}`).join(', ');
      throw new Over('stuck', '', `nobody can go on: ${where}`);
    }
    for (const { line, test } of this.scene.ends) this.test(test, `at the end line ${line}`, '');
  }

  /** The kernel's history, read by the seat that is inside or has the turn, else by the spare one. What that adds is
   * left out, and so is the spare seat.
   * @returns {string} */
  history() {
    const waits = () => this.actors.find((it) => it.waits() && this.kernel.comesIn(it.i));
    const reader = this.actors.find((it) => it.place === 'inside') || waits(), spare = this.actors.length + 1;
    if (!reader) this.kernel.calls.monk_k_enter(this.kernel.at(spare));
    const [head, ...events] = this.kernel.history(reader ? reader.i : spare).trim().split('\n');
    const words = head.split(' ');
    words[3] = String(this.actors.length + Number(this.wasUnasked));
    return `${[words.join(' '), ...events.slice(0, this.story.length)].join('\n')}\n`;
  }
}

/** The name of what an automatic kind waits for.
 * @param {Actor} actor @param {Call} call @returns {string} */
function testOf(actor, call) {
  const place = call.isMany ? `${call.name}, line ${call.line}` : call.name;
  return call.isOwn ? `${place}, for ${actor.name}` : place;
}
