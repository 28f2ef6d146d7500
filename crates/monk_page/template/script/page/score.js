// How many of the questions were answered rightly.

let right = 0;
let answered = 0;

function scored(isRight) {
  answered += 1;
  right += isRight ? 1 : 0;
  byId('score').textContent = `${right}/${answered}`;
  settle();
}
