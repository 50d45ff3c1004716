'use strict';
// Elements of the page, and of a film's view: of HTML and of SVG.

// Makes an element with attributes and what stands in it: texts or elements.
function make(name, attributes = {}, ...inside) {
  const element = document.createElement(name);
  for (const [attribute, value] of Object.entries(attributes)) element.setAttribute(attribute, value);
  element.append(...inside);
  return element;
}

// Sets a text only if it is another one, so that nothing is drawn or read aloud twice. The node of a text stays: texts change often.
function setText(element, text) {
  if (element.textContent === text) return;
  const { firstChild } = element;
  if (text && firstChild?.nodeType === Node.TEXT_NODE && element.childNodes.length === 1) firstChild.data = text;
  else element.textContent = text;
}

// Sets an attribute only if it is another one.
function setAttribute(element, name, value) {
  if (element.getAttribute(name) !== String(value)) element.setAttribute(name, value);
}

// Scrolls to an element that is not seen: at the width of a phone it may stand far below.
function bringIntoView(element) {
  const { top, bottom } = element.getBoundingClientRect();
  if (top < 0 || bottom > innerHeight) element.scrollIntoView({ block: 'center' });
}

const SVG = 'http://www.w3.org/2000/svg';

function drawn(name, attributes, ...inside) {
  const element = document.createElementNS(SVG, name);
  for (const [attribute, value] of Object.entries(attributes)) element.setAttribute(attribute, value);
  element.append(...inside);
  return element;
}
