// What each part of the script builds with.

const byId = (id) => document.getElementById(id);
const SVG = 'http://www.w3.org/2000/svg';

function make(tag, cls, ...inside) {
  const element = document.createElement(tag);
  if (cls) element.className = cls;
  element.append(...inside);
  return element;
}

function draw(tag, attributes, parent) {
  const element = document.createElementNS(SVG, tag);
  for (const name in attributes) element.setAttribute(name, attributes[name]);
  if (parent) parent.append(element);
  return element;
}

function button(cls, does, ...inside) {
  const element = make('button', cls, ...inside);
  element.type = 'button';
  element.addEventListener('click', does);
  return element;
}

const plural = (n, one, many) => `${n} ${n === 1 ? one : many || one + 's'}`;
const listed = (xs) =>
  xs.length < 2 ? xs.join('') : `${xs.slice(0, -1).join(', ')} and ${xs[xs.length - 1]}`;
const seatsOf = (xs) => (xs.length === 1 ? `seat ${xs[0]}` : `seats ${listed(xs)}`);

const isHiding = () => document.body.classList.contains('hiding');
const isFitting = () => byId('fit').checked;
