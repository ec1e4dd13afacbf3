// Shows what the panel's server sends, and hands on what is clicked.
'use strict';

const operates = document.body.dataset.operates === 'true';
const ENDS = {open: 'open', close: 'closed'};
const LIMIT = 2000;   // ms that a request may take, from the click on
const PAUSE = 700;    // ms for which what is to be confirmed is shown before it can be
const SILENT = 4000;  // ms without a sign of life, until the panel counts as gone
const AGAIN = 5000;   // ms until a page that is one too many tries again
let state = {switches: [], measures: [], inputs: [], events: [], control: null};
let shown = null;     // the id of the switch of the dialog
let pending = null;   // what ends the request whose answer is waited for
let asked = false;    // whether this page may have selected something
let number = 0;       // of the last request of this page
let last = null;      // the number of the last end that was told here, or before this page
let lastTold = '';    // the events that were shown
let isGone = true;    // whether the panel itself is gone
let goneAt = '';      // when it went
let surplus = '';     // why the panel serves this page no events, where it doesn't
let silent = '';      // since when the server has not answered, while it is connected
let panelMoment = 0;  // the panel's own clock at its last sign of life
let heard = 0;        // when that came, by the clock of this page
let heardAt = null;   // and by the clock of the day
let offered = '';     // the control whose confirmation is offered
let confirmFrom = Infinity;  // from when on it can be confirmed
const page = Array.from(crypto.getRandomValues(new Uint32Array(4)), (n) => n.toString(16)).join('');

// What is released of a switch, as far as it is known now.
function ways(it, way) {
  return lastKnown() ? {free: false, told: '? not known', why: ''} : may(it, way);
}

function mark(it, way) {
  return ways(it, way).told.charAt(0);
}

// When what is shown was last known, or nothing where it is known now.
function lastKnown() {
  if (!state.switches.length) return '';
  return isGone ? goneAt : state.connected ? silent : state.read;
}

// What keeps everything from being operated, in few words and in a sentence; or nothing.
function trouble() {
  if (surplus) return ['not served', `${surplus}. This page shows nothing, and tries again.`];
  if (isGone) {
    return goneAt
      ? ['panel gone', `The panel is gone since ${goneAt}: what is shown is old.`] : null;
  }
  if (!state.connected && state.read) {
    return ['server lost', `The server is lost since ${state.read}: ${state.told}.`];
  }
  if (!state.connected && state.told !== 'connecting') {
    return ['no server', `There is no connection to the server: ${state.told}.`];
  }
  if (silent) return ['server lost', `The server has not answered since ${silent}.`];
  if (state.lost) return ['process lost', `${raised(state.process)}. Every operate is refused.`];
  return null;
}

function raised(told) {
  return told.charAt(0).toUpperCase() + told.slice(1);
}

function described(it) {
  const told = ['open', 'close'].map((way) => ways(it, way).told.replace(/^. /, ''));
  const past = lastKnown() ? 'last known ' : '';
  const notes = notesOf(it).filter(Boolean);
  return [it.id, it.kind, `${past}${placeOf(it)}`, ...notes, ...told].join(', ');
}

function showPicture() {
  for (const it of state.switches) {
    const drawn = document.querySelector(`g[data-switch="${CSS.escape(it.id)}"]`);
    if (!drawn) continue;
    const position = it.known ? it.position : 'unknown';
    drawn.setAttribute('class', `switch ${position}${it.selected ? ' selected' : ''}`);
    drawn.setAttribute('aria-label', described(it));
    drawn.querySelector('.told').textContent = positionOf(it);
    const isPlain = !it.known || it.quality === 'good' || it.position === 'bad';
    const more = [isPlain ? '' : it.quality, it.selected ? 'selected' : ''];
    drawn.querySelector('.more').textContent = more.filter(Boolean).join(', ');
    const frees = drawn.querySelector('.frees');
    if (frees) frees.textContent = `open ${mark(it, 'open')} close ${mark(it, 'close')}`;
  }
}

// In a window that is too narrow for the whole diagram it is drawn so large that the bay's own
// switches fit, and moved to them.
function showOwn() {
  const frame = document.querySelector('.frame');
  const drawn = frame.querySelector('svg.diagram.wide');
  if (!drawn) return;
  drawn.removeAttribute('style');
  const room = frame.clientWidth;
  if (drawn.getBoundingClientRect().width <= room + 1) return;
  const own = Array.from(drawn.querySelectorAll('g[data-switch]'), (it) => it.getBBox());
  const left = Math.min(...own.map((it) => it.x));
  const right = Math.max(...own.map((it) => it.x + it.width));
  const scale = Math.min(1, room / (right - left));
  drawn.style.minWidth = '0';
  drawn.style.maxWidth = 'none';
  drawn.style.width = `${Math.max(room, drawn.viewBox.baseVal.width * scale)}px`;
  frame.scrollLeft = ((left + right) * scale - room) / 2;
}

function wayCell(it, way) {
  const cell = element('td', 'releases');
  const found = ways(it, way);
  cell.append(element('span', found.free ? 'way free' : 'way', found.told));
  if (found.why) cell.append(element('span', 'why', found.why));
  return cell;
}

function row(it) {
  const found = element('tr');
  const head = element('th');
  head.scope = 'row';
  const button = element('button', 'name', it.id);
  button.dataset.switch = it.id;
  button.setAttribute('aria-label', `${it.id}: details`);
  head.append(button);
  const place = element('td', it.position === 'bad' ? 'place bad' : 'place', positionOf(it));
  place.append(element('span', 'why', [qualityOf(it), ...notesOf(it)].filter(Boolean).join(', ')));
  found.append(head, place, wayCell(it, 'open'), wayCell(it, 'close'));
  return found;
}

function showSwitches() {
  const body = document.querySelector('#switches tbody');
  const focused = document.activeElement && document.activeElement.dataset.switch;
  const inTable = focused && body.contains(document.activeElement);
  body.replaceChildren(...state.switches.map(row));
  if (inTable) body.querySelector(`button[data-switch="${CSS.escape(focused)}"]`)?.focus();
}

function showMeasures() {
  const list = document.querySelector('#measures ul');
  byId('measures').hidden = state.measures.length === 0;
  byId('no-unit').hidden = state.measures.every((it) => it.unit);
  list.replaceChildren(...state.measures.map((it) => {
    const found = element('li', '', it.name);
    found.append(element('b', '', `${it.value.toLocaleString('en')} ${it.unit}`.trim()));
    if (it.quality !== 'good') found.append(element('span', 'wrong', it.quality));
    return found;
  }));
}

// The value of an input, which is not known before its first report and while the process is lost.
function truthOf(it) {
  return it.quality === 'good' ? (it.value ? 'TRUE' : 'FALSE') : 'not known';
}

function showInputs() {
  byId('inputs').hidden = state.inputs.length === 0;
  document.querySelector('#inputs ul').replaceChildren(...state.inputs.map((it) => {
    const found = element('li', it.value ? 'raised' : '', it.name);
    found.append(element('b', '', truthOf(it)));
    if (it.time) found.append(element('span', 'quiet', `since ${it.time}`));
    return found;
  }));
}

// Where the key of a switch is, as far as it is seen.
function keyOf(it) {
  const input = state.inputs.find((one) => one.name.toUpperCase() === it.key.toUpperCase());
  if (!input) return 'must be at remote (not seen here)';
  return `is at ${input.value ? 'remote' : 'local'}`;
}

function showEvents() {
  const list = document.querySelector('#events ol');
  const key = JSON.stringify(state.events);
  if (key === lastTold) return;
  lastTold = key;
  list.replaceChildren(...state.events.slice().reverse().map((it) => {
    const found = element('li', it.kind);
    found.append(element('time', '', it.time), element('span', '', it.told));
    return found;
  }));
}

// At the head a few words, and above all else what is wrong.
function showConnection() {
  const wrong = trouble();
  const [short, long] = wrong || [state.told, state.process ? `${raised(state.process)}.` : ''];
  const head = byId('connection');
  head.textContent = isGone && !wrong ? 'connecting' : short;
  head.className = wrong ? 'lost' : isGone || state.process || !state.connected ? 'waiting' : '';
  const above = byId('trouble');
  above.hidden = !long || (isGone && !wrong);
  above.className = wrong ? 'lost' : 'waits';
  if (above.textContent !== long) above.textContent = long;
  const since = lastKnown();
  document.querySelector('main').classList.toggle('stale', Boolean(since) || isGone);
  for (const it of document.querySelectorAll('.last')) {
    it.hidden = !since;
    it.textContent = since ? `no connection: this was last known at ${since}` : '';
  }
}

function tell(told, kind) {
  byId('dialog-told').textContent = told;
  byId('dialog-told').className = kind || '';
}

// The control that the panel has under way, where it is of this page or of any.
function control(isOurs) {
  const found = state.control;
  return found && (!isOurs || (found.page === page && found.switch === shown)) ? found : null;
}

function isLive() {
  return operates && !trouble() && !isGone && state.connected && !state.barred && !pending;
}

function showWay(it, way) {
  const found = ways(it, way);
  byId(`dialog-${way}`).textContent = found.why ? `${found.told}: ${found.why}` : found.told;
  const button = byId(`button-${way}`);
  const can = operates && !trouble() && !state.barred && it.control !== 'status' && !control()
    && it.position !== ENDS[way];
  button.hidden = !can;
  button.disabled = !isLive() || !found.free;
  button.textContent = `${raised(way)} ${it.id}`;
}

// What is known of the switch of the dialog.
function dialogState(it) {
  const wrong = trouble();
  if (lastKnown()) {
    return `${wrong[1]} ${it.id} was ${placeOf(it)}, last known at ${lastKnown()}.`;
  }
  const since = it.time ? ` since ${it.time}` : '';
  const barred = operates && state.barred ? ` But ${state.barred}.` : '';
  const key = operates && it.key ? ` Its key ${it.key} ${keyOf(it)}.` : '';
  return `It is ${placeOf(it)}${since}.${key}${barred}${wrong ? ` ${wrong[1]}` : ''}`;
}

// What is offered: to confirm only what this page has selected and the interlocking releases, to
// give up whatever the panel has selected.
function showDialog() {
  const it = state.switches.find((one) => one.id === shown);
  if (!byId('dialog').open || !it) return;
  byId('dialog-title').textContent = `${it.id}, ${it.kind}`;
  byId('dialog-state').textContent = dialogState(it);
  showWay(it, 'open');
  showWay(it, 'close');
  const ours = control(true);
  const any = control();
  const confirm = byId('button-confirm');
  confirm.hidden = !ours || ours.stage !== 'selected' || !ways(it, ours.way).free;
  confirm.disabled = !isLive();
  if (ours) confirm.textContent = `Confirm: ${ours.way} ${ours.switch}`;
  const cancel = byId('button-cancel');
  cancel.hidden = !operates || !any || any.stage !== 'selected';
  cancel.disabled = !isLive();
  if (any) cancel.textContent = `Give up: ${any.way} ${any.switch}`;
  offer(confirm.hidden || confirm.disabled ? '' : `${ours.way} ${ours.switch}`);
  if (document.activeElement === document.body) byId('button-back').focus();
}

// A click on Confirm counts from 0.7 s after Confirm is seen, and the keyboard is on another
// button: so no click and no key that was meant for something else operates.
function offer(told) {
  if (told === offered) return;
  offered = told;
  confirmFrom = Infinity;
  byId('button-confirm').classList.add('soon');
  if (!told) return;
  byId('button-cancel').focus();
  const counts = () => {
    if (offered !== told) return;
    confirmFrom = performance.now() + PAUSE;
    setTimeout(() => byId('button-confirm').classList.toggle('soon', offered !== told), PAUSE);
  };
  requestAnimationFrame(() => requestAnimationFrame(counts));
}

function followControl() {
  const number = state.last ? state.last.number : 0;
  if (last !== null && number !== last && byId('dialog').open) {
    tell(state.last.told, state.last.good ? 'good' : 'wrong');
  }
  last = number;
}

// The panel's moment of an event here: that of its last sign of life, and what has passed since.
function momentOf(event) {
  return Math.floor(panelMoment + Math.min(event.timeStamp, performance.now()) - heard);
}

async function post(verb, id, way, made, more) {
  number += 1;
  try {
    const answer = await fetch(verb, {
      method: 'POST',
      headers: {'X-Panel': document.body.dataset.token, 'Content-Type': 'application/json'},
      body: JSON.stringify({switch: id, way, page, number, made}),
      ...more,
    });
    return answer.ok ? await answer.json() : {good: false, told: await answer.text()};
  } catch (error) {
    const isLate = more.signal && more.signal.aborted;
    return {good: false, isLate, told: isLate
      ? `the panel gave no answer within ${LIMIT / 1000} s, so this was given up: see the events`
      : 'the panel does not answer'};
  }
}

// Asks the panel, and shows what it answers; its state comes by itself. A click that was made long
// ago, while the page stood still, is not asked at all.
async function ask(verb, id, way, event, more) {
  const left = LIMIT - (performance.now() - event.timeStamp);
  if (left <= 0) return tell('this page stood still, so that click was dropped', 'wrong');
  const mine = new AbortController();
  const before = last;
  pending = mine;
  asked = true;
  const timer = setTimeout(() => mine.abort(), left);
  tell('');
  showDialog();
  const found = await post(verb, id, way, momentOf(event), {signal: mine.signal});
  clearTimeout(timer);
  if (pending !== mine) return;
  pending = null;
  if (found.isLate) leave(false);
  // An end that was told meanwhile is the later news.
  if (!found.good || last === before) {
    tell(found.good && more ? `${found.told}. ${more}` : found.told, found.good ? '' : 'wrong');
  }
  showDialog();
}

// The second click of a double click asks for nothing.
function select(way, event) {
  if (event.detail < 2 && !pending) {
    ask('select', shown, way, event, 'Confirm, or give up.');
  }
}

function confirmIt(event) {
  const found = control(true);
  if (found && event.detail < 2 && !pending && event.timeStamp >= confirmFrom) {
    ask('operate', found.switch, found.way, event);
  }
}

function giveUp(event) {
  const found = control();
  if (found && event.detail < 2 && !pending) ask('cancel', found.switch, found.way, event);
}

function openDialog(id) {
  if (asked) leave(false);
  shown = id;
  offered = '';
  tell('');
  byId('dialog').showModal();
  showDialog();
  byId('button-back').focus();
}

// If its dialog closes, the page goes or an answer is late, this page gives up what it asked for:
// it ends the request that is under way, and tells the panel.
function leave(isGoing) {
  const mine = pending;
  pending = null;
  offered = '';
  confirmFrom = Infinity;
  if (mine) mine.abort();
  if (asked) {
    post('leave', '', '', 0, {keepalive: isGoing, signal: AbortSignal.timeout(LIMIT)});
  }
  asked = false;
}

// The panel was started anew, so this page is of no use to it.
function loadAgain() {
  byId('trouble').hidden = false;
  byId('trouble').textContent = 'The panel was started anew: this page loads itself again.';
  try {
    sessionStorage.setItem('anew', new Date().toLocaleString('sv'));
  } finally {
    location.reload();
  }
}

function show(told) {
  state = JSON.parse(told);
  isGone = false;
  goneAt = '';
  showConnection();
  showPicture();
  showSwitches();
  showMeasures();
  showInputs();
  showEvents();
  followControl();
  showDialog();
}

function showAgain() {
  showConnection();
  showPicture();
  showSwitches();
  showDialog();
}

// A sign of life, and since when the server has not answered.
function lives(told) {
  const found = JSON.parse(told);
  panelMoment = found.moment;
  heard = performance.now();
  heardAt = new Date();
  const isNews = silent !== found.silent || (isGone && state.switches.length);
  silent = found.silent;
  if (state.switches.length) isGone = false;
  if (!isGone) goneAt = '';
  if (isNews) showAgain();
}

function gone() {
  isGone = true;
  if (!goneAt && heardAt) goneAt = heardAt.toLocaleString('sv');
  showAgain();
}

// The events of the panel, of which this page may be one page too many.
function listen() {
  const source = new EventSource(`events?${page}`);
  source.onmessage = (event) => show(event.data);
  source.onerror = () => { if (!surplus) gone(); };
  source.addEventListener('life', (event) => lives(event.data));
  source.addEventListener('start', (event) => {
    surplus = '';
    if (event.data !== document.body.dataset.start) loadAgain();
  });
  source.addEventListener('full', (event) => {
    surplus = event.data;
    source.close();
    gone();
    setTimeout(listen, AGAIN);
  });
}

document.addEventListener('click', (event) => {
  const found = event.target.closest('[data-switch]');
  if (found) openDialog(found.dataset.switch);
});
// A key that is held down neither opens a dialog nor presses a button.
document.addEventListener('keydown', (event) => {
  if (event.repeat && (event.key === 'Enter' || event.key === ' ')) event.preventDefault();
}, true);
document.addEventListener('keydown', (event) => {
  const found = event.target.closest && event.target.closest('g[data-switch]');
  if (found && !event.repeat && (event.key === 'Enter' || event.key === ' ')) {
    event.preventDefault();
    openDialog(found.dataset.switch);
  }
});
byId('button-open').addEventListener('click', (event) => select('open', event));
byId('button-close').addEventListener('click', (event) => select('close', event));
byId('button-confirm').addEventListener('click', confirmIt);
byId('button-cancel').addEventListener('click', giveUp);
byId('button-back').addEventListener('click', () => byId('dialog').close());
// The browser tells of a closed dialog later, when a quick hand may have opened it again.
byId('dialog').addEventListener('close', () => {
  if (!byId('dialog').open) leave(false);
});
window.addEventListener('pagehide', () => leave(true));
window.addEventListener('resize', showOwn);
setInterval(() => {
  if (!isGone && performance.now() - heard > SILENT) gone();
}, 500);

showOwn();
listen();
const anew = sessionStorage.getItem('anew');
if (anew) {
  sessionStorage.removeItem('anew');
  byId('anew').hidden = false;
  byId('anew').textContent = `The panel was started anew: this page loaded itself at ${anew}.`;
}
