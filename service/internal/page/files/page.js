'use strict';

// The page asks the service again and again. Whatever comes from events is put in as text, never as HTML.

const at = (id) => document.getElementById(id);
const period = 2000;
let unitSeconds = 1;
let last = null;

function element(tag, text, kind) {
  const made = document.createElement(tag);
  if (text !== undefined) made.textContent = text;
  if (kind) made.className = kind;
  return made;
}

function headers() {
  const token = sessionStorage.getItem('token');
  return token ? { Authorization: 'Bearer ' + token } : {};
}

async function ask(path, options = {}) {
  const response = await fetch(path, { ...options, headers: headers() });
  at('token-form').hidden = response.status !== 401;
  const body = await response.json();
  if (!response.ok) throw new Error((body.place ? body.place + ': ' : '') + (body.detail || response.status));
  return body;
}

function eventText(event) {
  return event.name + '(' + event.args.map((arg) => JSON.stringify(arg)).join(', ') + ')';
}

// A time of the log as a person reads it, where its unit is one of a clock.
function timeText(time) {
  const seconds = time * unitSeconds;
  return seconds > 1e8 && seconds < 1e11 ? new Date(seconds * 1000).toISOString().replace('T', ' ').slice(0, 19) : String(time);
}

function spanText(units) {
  const seconds = Math.round(units * unitSeconds);
  if (seconds < 120) return seconds + ' s';
  if (seconds < 7200) return Math.round(seconds / 60) + ' min';
  if (seconds < 172800) return Math.round(seconds / 3600) + ' h';
  return Math.round(seconds / 86400) + ' d';
}

function unitOf(text) {
  const parts = text.matchAll(/([0-9.]+)(ms|h|m|s)/g);
  let seconds = 0;
  for (const [, number, unit] of parts) seconds += number * { ms: 0.001, s: 1, m: 60, h: 3600 }[unit];
  return seconds || 1;
}

function showStatus(status) {
  unitSeconds = unitOf(status.unit);
  const ready = at('ready');
  ready.textContent = status.ready ? 'ready' : 'not ready';
  ready.className = 'state ' + (status.ready ? 'good' : 'bad');
  const now = performance.now();
  if (last) at('rate').textContent = ((status.position - last.position) / (now - last.now) * 1000).toFixed(1);
  last = { position: status.position, now };
  at('position').textContent = status.position;
  at('lag').textContent = status.lag;
  at('orders').textContent = status.orders_open;
  at('clock').textContent = timeText(status.clock);
  at('held').textContent = status.clock_held_seconds.toFixed(0) + ' s';
  at('held').className = status.clock_held_seconds > 0 ? 'bad' : '';
  at('checkpoint').textContent = status.checkpoint.replace('T', ' ').slice(0, 19);
  at('changes').replaceChildren(...status.latest.map(changeRow));
  at('rules').replaceChildren(...status.rules.map((rule) => {
    const row = element('tr');
    row.append(element('td', rule.name), element('td', rule.text, 'event'));
    return row;
  }));
}

function changeRow(change) {
  const row = element('tr');
  const added = change.kind === 'cause';
  const origin = change.origin.id ? change.origin.id : 'step ' + change.origin.position;
  row.append(
    element('td', timeText(change.time)),
    element('td', added ? 'added' : 'taken out', added ? 'added' : 'removed'),
    element('td', eventText(change.event), 'event'),
    element('td', change.rule),
    element('td', origin),
    element('td', change.id || ''),
  );
  return row;
}

function showPending(list) {
  const note = list.pending.length === 0 ? 'Nothing is pending.' : list.pending.length + ' pending; the next ones first.';
  at('pending-note').textContent = note;
  at('pending').replaceChildren(...list.pending.slice(0, 50).map((due) => {
    const row = element('div', undefined, 'due');
    const who = due.bindings.map((b) => (b.name ? b.name + ' = ' : '') + JSON.stringify(b.value)).join(', ');
    const bar = element('meter');
    const begun = due.origin.time === undefined ? due.from : due.origin.time;
    bar.min = 0;
    bar.max = Math.max(due.due - begun, 1);
    bar.value = Math.min(Math.max(list.clock - begun, 0), bar.max);
    bar.title = 'from ' + timeText(due.from) + ' until ' + timeText(due.due);
    row.append(
      element('span', due.rule + (who ? ': ' + who : '')),
      bar,
      element('span', spanText(due.due - list.clock) + ' left', 'left'),
    );
    return row;
  }));
}

function showFault(fault) {
  at('fault').hidden = !fault;
  at('fault').textContent = fault ? 'No answer: ' + fault.message : '';
  if (fault) {
    at('ready').textContent = 'not seen';
    at('ready').className = 'state bad';
  }
}

async function refresh() {
  try {
    showStatus(await ask('v1/status'));
    showPending(await ask('v1/pending'));
    showFault(null);
  } catch (fault) {
    showFault(fault);
  }
  setTimeout(refresh, period);
}

function triedText(step) {
  const lines = ['at ' + timeText(step.time) + ', step ' + step.position];
  for (const event of step.allowed) lines.push('  done       ' + eventText(event));
  for (const event of step.beside || []) lines.push('  beside     ' + eventText(event));
  for (const change of step.added) lines.push('  added      ' + eventText(change.event) + ' by rule ' + change.rule);
  for (const change of step.removed) lines.push('  taken out  ' + eventText(change.event) + ' by rule ' + change.rule);
  return lines.join('\n');
}

at('try-form').addEventListener('submit', async (event) => {
  event.preventDefault();
  const out = at('tried');
  try {
    const answer = await ask('v1/try', { method: 'POST', body: at('try-text').value });
    out.textContent = answer.steps.map(triedText).join('\n');
  } catch (fault) {
    out.textContent = fault.message;
  }
  out.hidden = false;
});

at('token-form').addEventListener('submit', (event) => {
  event.preventDefault();
  sessionStorage.setItem('token', at('token').value);
  at('token').value = '';
  at('token-form').hidden = true;
});

refresh();
// A link may bring a step to try: /#try=STEP.
const linked = location.hash.startsWith('#try=') ? decodeURIComponent(location.hash.slice(5)) : '';
at('try-text').value = linked || '{"events": [{"name": "use", "args": ["ann"]}]}';
if (linked) at('try-form').requestSubmit();
