// The object in words: its predicates, its acts, its data.

const FLAGS = Array.from({ length: 32 }, (_, flag) => `flag ${flag} is set`);
const PREDICATES = {
  buffer: ['there is room for an item', 'an item is there'],
  book: ['a read may start', 'the write may start'],
  shop: ['a chair to wait on is free', 'a customer may be called', 'the cut is done'],
  flags: FLAGS,
}[H.object];

// What an act does, and what it tries to do.
const ACTS = {
  book: [
    ['starts to read', 'to start a read'],
    ['ends its read', 'to end a read'],
    ['starts to write', 'to start the write'],
    ['ends the write', 'to end the write'],
  ],
  shop: [
    ['sits down to wait', 'to sit down'],
    ['calls the next customer', 'to call a customer'],
    ['finishes the cut', 'to finish a cut'],
    ['departs', 'to depart'],
  ],
}[H.object];

function bufferAct(code, arg, reply) {
  if (code === '0') {
    return reply === '0' ? `tries to put ${arg} in vain: no room (reply 0)` : `puts item ${arg}`;
  }
  return reply === '0'
    ? 'tries to take an item in vain: none is there (reply 0)'
    : `takes item ${BigInt(reply) - 1n} (the reply is the item and 1)`;
}

// The flags that a number has, as bits.
function flagsIn(bits) {
  const flags = Array.from({ length: H.size }, (_, flag) => flag);
  return flags.filter((flag) => (BigInt(bits) >> BigInt(flag)) & 1n);
}

function flagsAct(arg, reply) {
  const set = flagsIn(arg);
  const flags = `flag${set.length > 1 ? 's' : ''} ${listed(set)}`;
  const others = set.length < H.size ? ' and no other' : '';
  if (reply === '0') return `tries to set ${set.length ? flags : 'no flag'}${others}, in vain (reply 0)`;
  return set.length ? `sets ${flags}${others}` : 'clears all flags';
}

function actWords(r) {
  const [, , code, arg, reply] = r.words;
  if (H.object === 'buffer' && (code === '0' || code === '1')) return bufferAct(code, arg, reply);
  if (H.object === 'flags' && code === '0') return flagsAct(arg, reply);
  if (ACTS && ACTS[code]) {
    return reply === '0' ? `tries ${ACTS[code][1]}, in vain (reply 0)` : ACTS[code][0];
  }
  return `does ${code} ${arg} with reply ${reply}`;
}

function bufferWords([size, ...items]) {
  if (items.length === 0) return [`No item (at most ${size}).`];
  const [s, order] = items.length > 1 ? ['s', ', oldest first'] : ['', ''];
  return [`Item${s} ${items.join(', ')}${order} (${items.length} of ${size}).`];
}

function bookWords([size, readers, writes]) {
  if (writes) return ['Somebody writes.'];
  if (!readers) return ['Nobody reads or writes.'];
  return [`${readers === 1 ? 'One seat reads' : `${readers} seats read`} (at most ${size}).`];
}

function shopWords([size, waiting, cut]) {
  const sit = ['Nobody sits and waits', 'One customer sits and waits'][waiting];
  return [
    `${sit || `${waiting} customers sit and wait`} (at most ${size}).`,
    [
      'The barber\u2019s chair is empty.',
      'A cut is going on.',
      'The cut is done; its customer is still there.',
    ][cut],
  ];
}

function flagsWords([size, bits]) {
  const set = flagsIn(bits);
  if (set.length === 0) return [`No flag is set (of ${size}).`];
  return [`${set.length === 1 ? 'Flag' : 'Flags'} ${listed(set)} set (of ${size}).`];
}

const dataWords = { buffer: bufferWords, book: bookWords, shop: shopWords, flags: flagsWords }[
  H.object
];

// The data at a step: those of the program, if they are told, else the object's.
const dataLines = (r) => (TOLD.data ? [TOLD.data[r.step] || ''] : dataWords(r.state));

function dataBox(r) {
  const cls = TOLD.data ? 'code' : '';
  return box('half', 'Data', '', ...dataLines(r).map((words) => make('p', cls, words)));
}

function objectWords() {
  return {
    buffer: `a buffer for ${plural(H.size, 'item')}`,
    book: `a book for ${plural(H.size, 'reader')}`,
    shop: `a shop with ${plural(H.size, 'waiting chair')}`,
    flags: `an object with ${plural(H.size, 'flag')}`,
  }[H.object];
}
