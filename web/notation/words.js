// The words of the notation, and what those who know another language write in their place.
// @ts-check

/** What each call of a condition is, by the names that it has in books, in Java and in POSIX. */
export const VERBS = new Map([['wait', 'wait'], ['signal', 'signal'], ['notify', 'signal'],
  ['signal_all', 'signal_all'], ['signalAll', 'signal_all'], ['broadcast', 'signal_all'], ['notifyAll', 'signal_all']]);
export const WAITING = 'waiting';

/** The types of Java and C that may stand in place of `let`. */
export const TYPES = /^(int|boolean|bool|double|float|String|var)$/;
export const WORD = /^[A-Za-z_$]/;
/** A word that keeps a value while its routine waits. */
export const KEEPING = /^(let|const|for|try)$/;
/** What a part begins with. */
const PARTS = 'monitor|thread|daemon|procedure|function|condition|invariant|finally|let|const';
export const HEADS = new RegExp(`^(${PARTS})$|${TYPES.source}`);
/** The words of JavaScript that name no variable. */
export const RESERVED = new Set(['let', 'const', 'var', 'if', 'else', 'while', 'for', 'do', 'return', 'break', 'continue',
  'new', 'typeof', 'in', 'of', 'instanceof', 'true', 'false', 'null', 'undefined', 'switch', 'case', 'default', 'try',
  'catch', 'finally', 'throw', 'function', 'Math', 'Number', 'String', 'Boolean', 'Array', 'Set', 'Map', 'Object']);

/** Words of other languages: what to write in their place. */
export const ELSEWHERE = new Map([['and', '&&'], ['or', '||'], ['not', '!'], ['True', 'true'], ['False', 'false'],
  ['None', 'null'], ['nil', 'null'], ['NULL', 'null'], ['elif', 'else if'], ['then', '{ .. }'], ['begin', '{'],
  ['def', 'procedure'], ['void', 'procedure'], ['synchronized', 'procedure'], ['public', 'procedure'],
  ['private', 'function'], ['self', 'the variable alone'], ['this', 'the variable alone'], ['len', '.length'],
  ['append', '.push'], ['yield', 'the call alone'], ['async', 'the call alone'], ['await', 'wait(condition)'],
  ['print', 'nothing: the page shows the data'], ['console', 'nothing: the page shows the data'],
  ['lock', 'nothing: a procedure has the monitor'], ['unlock', 'nothing: a procedure has the monitor'],
  ['pthread_cond_wait', 'wait(condition)'], ['pthread_cond_signal', 'signal(condition)'],
  ['pthread_cond_broadcast', 'signal_all(condition)'], ['pthread_mutex_lock', 'nothing: a procedure has the monitor'],
  ['pthread_mutex_unlock', 'nothing: a procedure has the monitor'],
  ['Date', 'nothing: each run has to be the same again'], ['$', 'another name'], ['setTimeout', 'nothing: there is no time']]);
