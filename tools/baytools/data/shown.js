// What each page says of a switch.
'use strict';

const byId = (id) => document.getElementById(id);

function element(name, kind, text) {
  const found = document.createElement(name);
  if (kind) found.className = kind;
  if (text !== undefined) found.textContent = text;
  return found;
}

function may(it, way) {
  const done = way === 'open' ? 'opened' : 'closed';
  if (it[way].free) return {free: true, told: `✓ may be ${done}`, why: ''};
  return {free: false, told: `✕ may not be ${done}`, why: it[way].why};
}

// A switch without control is moved by hand: what is released of it goes to its blocking magnet.
function notesOf(it) {
  return [it.selected ? 'selected' : '', it.control === 'status' ? 'by hand' : ''];
}

function positionOf(it) {
  return it.known ? it.position : 'not known';
}

function qualityOf(it) {
  return it.known ? it.quality : 'not reported yet';
}

function placeOf(it) {
  return positionOf(it) + (qualityOf(it) === 'good' ? '' : `, ${qualityOf(it)}`);
}
