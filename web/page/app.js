// The page: a text, what came of it under each kind, and the game in one of them.
// @ts-check
import { KINDS } from '../engine/kinds.js';
import { firstOf, headerOf, isLevel, lacks, levelOf, unfit } from '../levels.js';
import { showBoard } from './board.js';
import { byId } from './dom.js';
import { Editor } from './editor.js';
import { Riddle, showGoal, showSoon } from './goals.js';
import { Play } from './play.js';
import { keep, kept } from './store.js';
import { chipsOf, hintOf, rightOf, showChoices, showStory } from './story.js';
import { isSaid, showKinds, verdictOf } from './table.js';
import { Work } from './worker.js';

/** @typedef {import('../levels.js').Level} Level */
/** @typedef {import('../engine/game.js').Played} Played */
/** @typedef {import('./worker.js').Said} Said */
/** @typedef {import('./link.js').Place} Place */
/** What the page was given: the levels and the scenes, and the engine with its kernel.
 * @typedef {{levels: Level[], scenes: Record<string, string>, wasm: Uint8Array, code: string}} Given */

const OWN_LEVEL = 'your own level', DEFAULT_KIND = 'NPNB';

export class App {
  /** @param {Given} given @param {() => void} moved is called when the address has changed */
  constructor(given, moved) {
    this.given = given;
    this.moved = moved;
    this.kept = kept();
    this.work = new Work(given.wasm, given.code, (said) => this.hear(said));
    this.editor = new Editor(() => this.run(), () => this.touch());
    /** @type {Level | null} */
    this.level = null;
    /** The scene's name, or '' for a text of one's own. */
    this.scene = '';
    this.isEdited = false;
    /** @type {Record<string, Played>} */
    this.played = {};
    /** @type {string[]} */
    this.seats = [];
    /** @type {Play | null} */
    this.play = null;
    /** @type {Riddle | null} */
    this.riddle = null;
    this.kind = DEFAULT_KIND;
    /** The moves that a link wants.
     * @type {number[]} */
    this.wanted = [];
    this.more = '';
    this.hints = 0;
    this.begun = 0;
  }

  get number() {
    return this.level ? this.given.levels.indexOf(this.level) + 1 : 0;
  }

  /** What a level is kept under. */
  get key() {
    return this.level ? `${this.level.name} ${this.level.goal}` : '';
  }

  get isMet() {
    return this.kept.met.includes(this.key);
  }

  get isBroken() {
    return !this.level || !this.level.first || this.kept.broken.includes(this.key);
  }

  /** Whether outcomes would give a riddle away. */
  get isRiddle() {
    const { level } = this;
    return Boolean(level) && !this.isMet && !this.isEdited && (!this.isBroken || level !== null && level.goal !== 'repair');
  }

  /** Whether questions stand in place of the game. */
  get isAsked() {
    return Boolean(this.level && this.level.goal === 'predict' && !this.isMet && !this.isEdited);
  }

  /** @param {Place} place */
  open(place) {
    this.wanted = place.moves || [];
    this.kind = place.kind && KINDS.includes(place.kind) ? place.kind : '';
    const level = this.given.levels[(place.level || 0) - 1];
    if (place.text !== undefined && !level) this.openText(place.text, Boolean(place.isEdited));
    else if (place.scene && Object.hasOwn(this.given.scenes, place.scene)) this.openScene(place.scene);
    else this.openLevel(level || this.given.levels[0], place.text);
    byId('unasked').checked = Boolean(place.unasked || (this.level && this.level.unasked));
    this.run();
  }

  /** @param {Level} level @param {string} [text] the player's part, if a link holds it */
  openLevel(level, text) {
    this.level = level;
    this.scene = '';
    this.isEdited = false;
    const own = text !== undefined ? text : this.kept.texts[this.key];
    this.editor.set(own === undefined ? level.monitor : own, level.threads);
  }

  /** @param {string} name */
  openScene(name) {
    this.openText(this.given.scenes[name], name === OWN_LEVEL);
    this.scene = name;
  }

  /** @param {string} text @param {boolean} isEdited whether a level is shown to who writes it */
  openText(text, isEdited) {
    this.level = null;
    this.scene = '';
    this.isEdited = isEdited;
    if (!isLevel(text) || isEdited) {
      this.editor.set(text, '');
      return;
    }
    try {
      this.openLevel(levelOf(text));
    } catch {
      this.editor.set(text, '');        // its fault is said when it is played
    }
  }

  /** The text has changed: what was played is not of it. */
  touch() {
    if (!this.level && this.scene !== OWN_LEVEL) this.scene = '';
    if (this.level && !this.isEdited) this.kept.texts[this.key] = this.editor.own;
    keep(this.kept);
    this.play = null;
    this.editor.mark(0);
    this.editor.show([]);
    byId('kinds').classList.add('old');
  }

  /** Plays every order of the text, the kind that is shown first. */
  run() {
    const { level, editor } = this;
    this.played = {};
    this.play = this.riddle = null;
    this.more = '';
    this.begun = performance.now();
    this.tell('', '');
    editor.lay();
    byId('fault').textContent = '';
    if (!this.readLevel()) return;
    const first = this.kind || (level ? firstOf(level) : DEFAULT_KIND);
    this.kind = first;
    const kinds = [first, ...KINDS.filter((it) => it !== first)];
    this.work.ask({ source: editor.text, unasked: Number(byId('unasked').checked), kinds });
    this.show();
  }

  /** Reads the head of a level that is being written. Answers whether there is no fault in it. */
  readLevel() {
    if (!this.isEdited && !isLevel(this.editor.text)) return true;
    if (this.level && !this.isEdited) return true;
    try {
      this.level = isLevel(this.editor.text) ? levelOf(this.editor.text) : null;
      return true;
    } catch (fault) {
      const { message, line } = /** @type {any} */ (fault);
      this.fail(message, line || 0);
      return false;
    }
  }

  /** @param {Said} said */
  hear({ played, seats, isDone, fault, line }) {
    if (fault !== undefined) this.fail(fault, line || Number((fault.match(/line (\d+)/) || [])[1]) || 0);
    if (played && seats) {
      this.played[played.kind] = played;
      this.seats = seats;
      if (!this.play && (played.kind === this.kind) && isSaid(played)) this.begin(played);
    }
    if (isDone) this.finish();
    if (fault === undefined) this.showTable();
  }

  /** @param {string} words @param {number} line */
  fail(words, line) {
    byId('fault').textContent = words;
    this.editor.mark(line);
    // a kind that was played before another was too large stays playable
    if (!Object.keys(this.played).length) this.play = null;
    this.show();
  }

  /** @param {Played} played */
  begin(played) {
    if (this.isAsked) return;
    this.kind = played.kind;
    this.play = new Play(played, this.seats);
    this.wanted.every((way) => this.play && this.play.choose(way));
    this.wanted = [];
    this.hints = 0;
    this.show();
  }

  /** All kinds are played. */
  finish() {
    const { level } = this;
    const said = KINDS.map((it) => this.played[it]).filter((it) => it && isSaid(it));
    if (!this.play && said.length) this.begin(said[0]);
    if (level && level.goal === 'repair' && this.isBroken && !this.isEdited) {
      const left = lacks(level, this.editor.own, this.played);
      if (!left) this.meet();
      else this.more = this.editor.own === level.monitor ? '' : left;
    }
    if (level && this.isEdited) this.more = unfit(level, this.played, byId('unasked').checked);
    if (level && this.isAsked) this.ask(level);
    this.showGoal();
  }

  /** @param {Level} level */
  ask(level) {
    this.riddle = new Riddle(this.seats, ({ kind, state }) => {
      this.kind = kind;
      showBoard(this.played[kind], state, this.seats);
      this.editor.show(state.lines.map((line, seat) => ({ line, chip: {
        name: this.seats[seat], style: state.where.inside && state.where.inside.includes(seat) ? 'inside' : '', moves: [] } })));
      this.showTable();
    }, (atOnce, of) => {
      this.riddle = null;
      this.meet();
      this.begin(this.played[this.kind]);
      this.tell(`${atOnce} of ${of} right at the first try.`, 'good');
    });
    this.riddle.begin(level.kinds.map((it) => this.played[it]));
    this.show();
  }

  /** The level is done. */
  meet() {
    if (!this.isMet && this.key) this.kept.met.push(this.key);
    keep(this.kept);
    this.more = '';
  }

  /** @param {number} way */
  choose(way) {
    if (!this.play || this.riddle || !this.play.choose(way)) return;
    this.hints = 0;
    this.tell('', '');
    this.judge();
    this.show();
  }

  /** Whether the order that was played breaks what the level wants broken. */
  judge() {
    const { level, play } = this;
    if (!level || !play || !play.isBroken || this.isEdited) return;
    if (level.goal === 'break' && play.kind.kind === level.kind) this.meet();
    if (!level.first || play.kind.kind !== level.first || this.isBroken) return;
    this.kept.broken.push(this.key);
    keep(this.kept);
  }

  undo() {
    if (!this.play || this.riddle) return;
    this.play.undo();
    this.hints = 0;
    this.tell('', '');
    this.show();
  }

  restart() {
    if (!this.play || this.riddle) return;
    this.play.restart();
    this.hints = 0;
    this.tell('', '');
    this.show();
  }

  hint() {
    if (!this.play || this.riddle || (this.level && this.level.goal === 'claim' && !this.isMet)) return;
    this.hints += 1;
    this.tell(hintOf(this.play, this.hints), '');
  }

  shortest() {
    if (!this.play || this.riddle || this.isRiddle) return;
    this.play.restart();
    const way = this.play.shortest();
    (way || []).forEach((it) => this.play && this.play.choose(it));
    this.tell(way ? '' : `There is none: ${rightOf(this.play.kind)}`, 'good');
    this.show();
  }

  claim() {
    if (!this.play || this.riddle) return;
    const { kind, runs, bad } = this.play.kind;
    if (bad) {
      const wrong = `${bad.toLocaleString('en')} of ${runs.toLocaleString('en')} orders go wrong`;
      this.tell(`Not so: ${wrong} under ${kind}. Find one.`, 'bad');
      return;
    }
    this.tell(`So it is: ${rightOf(this.play.kind)}`, 'good');
    if (this.level && this.level.goal === 'claim' && this.level.kind === kind && !this.isEdited) this.meet();
    this.showGoal();
    this.showTable();
  }

  /** @param {string} words @param {string} style */
  tell(words, style) {
    byId('told').className = style;
    byId('told').textContent = words;
  }

  /** @param {string} kind */
  take(kind) {
    if (!this.played[kind] || !isSaid(this.played[kind]) || this.riddle) return;
    this.tell('', '');
    this.begin(this.played[kind]);
    this.showTable();
  }

  /** The next kind, or the one before.
   * @param {number} by */
  another(by) {
    const playable = KINDS.filter((it) => this.played[it] && isSaid(this.played[it]));
    const at = playable.indexOf(this.kind) + by + playable.length;
    if (playable.length) this.take(playable[at % playable.length]);
  }

  show() {
    this.showGoal();
    this.showTable();
    const { play, isAsked } = this, choose = (/** @type {number} */ way) => this.choose(way);
    byId('right').classList.toggle('old', !play && !isAsked);
    byId('right').classList.toggle('asking', isAsked);
    ['undo', 'again'].forEach((id) => (byId(id).disabled = !play || !play.path.length));
    if (!play && !this.riddle) this.editor.show([]);
    if (isAsked && !this.riddle) showSoon(this.kind);
    if (play || isAsked) this.moved();
    if (!play) return;
    byId('asks').textContent = 'Who moves?';
    showBoard(play.kind, play.now, this.seats);
    this.editor.show(chipsOf(play, choose));
    showChoices(play, choose);
    showStory(play);
  }

  showTable() {
    const { played, kind } = this, all = Object.values(played);
    showKinds({ played, on: kind, isHidden: this.isRiddle, take: (it) => this.take(it) });
    byId('kinds').classList.toggle('old', !all.length);
    byId('shortest').disabled = this.isRiddle;
    byId('hint').disabled = Boolean(this.level && this.level.goal === 'claim' && !this.isMet);
    if (all.length < KINDS.length) byId('verdict').textContent = all.length ? `Played under ${all.length} of 10 kinds \u2026` : '';
    else if (this.isRiddle) byId('verdict').textContent = 'Every order was played. What came of it is shown when you are done.';
    else byId('verdict').textContent = `${verdictOf(KINDS.map((it) => played[it]), this.more)}${this.warning()}`;
  }

  /** What right means, if nothing is required. */
  warning() {
    const bare = this.editor.text.replace(/\/\/[^\n]*/g, '');
    return /\b(assert|invariant|finally)\b/.test(bare) || !KINDS.some((it) => !this.played[it].bad) ? '' :
      ' There is no assert, invariant or finally: right says only that no thread is stuck.';
  }

  showGoal() {
    const { level, number, isMet, isBroken, more } = this, next = this.given.levels[number];
    const [head] = this.editor.text.match(/^(\/\/.*\n)+/) || [''];
    const about = head.replace(/^\/\/ ?/gm, '').replace(/\n/g, ' ').trim() || 'A scene of your own.';
    const isChanged = level && !this.isEdited && this.editor.own !== level.monitor;
    showGoal({ level, number, isMet: isMet && !this.isEdited, isBroken, isOwn: this.isEdited, more, about,
      resets: isChanged ? () => this.reset(level) : null,
      goes: number && next ? () => this.open({ level: number + 1 }) : null });
    byId('levels').querySelectorAll('button').forEach((/** @type {HTMLElement} */ it, /** @type {number} */ i) => {
      const { name, goal } = this.given.levels[i], isDone = this.kept.met.includes(`${name} ${goal}`);
      it.className = isDone ? 'met' : '';
      it.setAttribute('aria-pressed', String(i + 1 === number));
      it.setAttribute('aria-label', `Level ${i + 1}: ${name}${isDone ? ', done' : ''}`);
    });
    byId('scenes').value = this.scene;
  }

  /** Takes back what was changed in a level's text.
   * @param {Level} level */
  reset(level) {
    delete this.kept.texts[this.key];
    keep(this.kept);
    this.openLevel(level);
    this.run();
  }

  /** What a link to this holds.
   * @returns {Place} */
  place() {
    const { level, number, scene, play, editor, isEdited } = this, unasked = byId('unasked').checked;
    const game = { kind: this.kind, moves: play ? play.path : [], unasked, isEdited };
    const changed = level && editor.own !== level.monitor ? { text: editor.own } : {};
    if (number && level) return { ...game, level: number, ...changed };
    const isStored = scene && editor.text === `${this.given.scenes[scene].replace(/\s*$/, '')}\n`;
    if (isStored) return { ...game, scene };
    return { ...game, text: level && !isEdited ? `${headerOf(level)}${editor.text}` : editor.text };
  }
}
