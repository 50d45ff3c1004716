'use strict';
// The search over the documents, and the DSKY in the front page. Without this script the DSKY's picture is a link to agc.html.

const MOST_HITS = 60;
const BEFORE = 60; // characters of a section before the first word that was found
const SHOWN = 240; // characters of it in all

const wordsOf = (query) => [...new Set(query.toLowerCase().split(/\s+/).filter(Boolean))];

// How well a section has a word: a heading counts more than a text, a whole word more than a part of one; 0 if it has not.
function worth(word, title, heading, text) {
  const isWhole = (part) => ` ${part.replace(/[^\p{L}\p{N}+-]+/gu, ' ')} `.includes(` ${word} `);
  const times = text.split(word).length - 1;
  return (heading.includes(word) ? 8 : 0) + (title.includes(word) ? 4 : 0) + (isWhole(heading) ? 4 : 0) + (isWhole(text) ? 2 : 0) + Math.min(times, 5);
}

// The sections that have all words, the best first.
function search(query) {
  const words = wordsOf(query);
  if (!words.length) return [];
  return INDEX.map(([place, title, heading, text]) => {
    const worths = words.map((word) => worth(word, title.toLowerCase(), heading.toLowerCase(), text.toLowerCase()));
    return { place, title, heading, text, worth: worths.includes(0) ? 0 : worths.reduce((sum, each) => sum + each) };
  }).filter((hit) => hit.worth).sort((a, b) => b.worth - a.worth);
}

// Appends a text to an element, with the words that were searched marked.
function appendMarked(element, text, words) {
  const low = text.toLowerCase();
  let at = 0;
  while (at < text.length) {
    const next = words.map((word) => [low.indexOf(word, at), word.length]).filter(([start]) => start >= 0).sort((a, b) => a[0] - b[0] || b[1] - a[1])[0];
    if (!next) break;
    const mark = document.createElement('mark');
    mark.textContent = text.slice(next[0], next[0] + next[1]);
    element.append(text.slice(at, next[0]), mark);
    at = next[0] + next[1];
  }
  element.append(text.slice(at));
}

// The part of a text around the first word that is in it.
function excerpt(text, words) {
  const places = words.map((word) => text.toLowerCase().indexOf(word)).filter((at) => at >= 0);
  const from = Math.max(0, Math.min(...places, text.length) - BEFORE);
  const start = places.length && from > 0 ? text.indexOf(' ', from) + 1 : 0;
  const part = text.slice(start, start + SHOWN);
  const isCut = start + SHOWN < text.length;
  return (start ? '.. ' : '') + (isCut ? part.replace(/ \S*$/, ' ..') : part);
}

function showHits(query) {
  const words = wordsOf(query);
  const hits = search(query);
  const items = hits.slice(0, MOST_HITS).map(({ place, title, heading, text }) => {
    const item = document.createElement('li');
    const link = document.createElement('a');
    const part = document.createElement('p');
    link.href = place;
    appendMarked(link, heading === title ? title : `${title}: ${heading}`, words);
    appendMarked(part, excerpt(text, words), words);
    item.append(link, part);
    return item;
  });
  document.getElementById('hits').replaceChildren(...items);
  document.getElementById('lists').hidden = words.length > 0;
  const count = hits.length === 1 ? '1 section' : `${hits.length || 'No'} sections`;
  const most = hits.length > MOST_HITS ? `; the first ${MOST_HITS} are shown` : '';
  document.getElementById('found').textContent = words.length ? `${count}${most}.` : 'Type a word, an order, an option or an octal number.';
}

function buildSearch() {
  const input = document.querySelector('input[name=q]');
  input.value = new URLSearchParams(location.search).get('q') ?? '';
  input.addEventListener('input', () => showHits(input.value));
  input.focus();
  showHits(input.value);
}

// Puts agc.html in the place of its picture, if there is room for the whole machine.
function buildStart(link) {
  link.addEventListener('click', (event) => {
    if (innerWidth < 1000 || event.ctrlKey || event.metaKey || event.shiftKey) return;
    event.preventDefault();
    const frame = document.createElement('iframe');
    frame.src = link.getAttribute('href');
    frame.title = 'The DSKY';
    frame.addEventListener('load', () => frame.focus());
    link.replaceWith(frame);
  });
}

if (document.getElementById('hits')) buildSearch();
if (document.getElementById('start')) buildStart(document.getElementById('start'));
