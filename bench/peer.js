'use strict';
// A peer for `bench/run`: it replays the inputs of shapes.py in Node, by the design of Meteor's server and client.
//
//   node peer.js < INPUT
//
// It prints what `ddp replay` prints, byte by byte, and does the same work: a store with its history; a session for each
// client, with a queue, subscriptions, a merge box and fences; each message a JSON text, which the client parses; stubs over
// saved documents. What equal subscriptions publish is made once for all sessions, and so is the text of a change that one
// subscription alone publishes. It does less where that can't be seen in these inputs, always in its own favour: values are
// plain JSON of ASCII texts, nothing is checked of a line, of an application or against a limit, no journal is kept, and the
// keys of a message stand in any order.

const fs = require('node:fs');

// ------------------------------------------------------------------------------------------------ values

function isObject(v) {
  return v !== null && typeof v === 'object' && !Array.isArray(v);
}

function same(a, b) {
  if (a === b) return true;
  if (typeof a !== 'object' || typeof b !== 'object' || a === null || b === null) return false;
  if (Array.isArray(a)) {
    if (!Array.isArray(b) || a.length !== b.length) return false;
    for (let i = 0; i < a.length; i++) if (!same(a[i], b[i])) return false;
    return true;
  }
  if (Array.isArray(b)) return false;
  let n = 0;
  for (const k in a) {
    if (!(k in b) || !same(a[k], b[k])) return false;
    n++;
  }
  for (const _ in b) n--;
  return n === 0;
}

/** The compact text of a value, the keys of each object in order. */
function text(v) {
  if (v === null || typeof v !== 'object') return JSON.stringify(v);
  if (Array.isArray(v)) return '[' + v.map(text).join(',') + ']';
  return '{' + Object.keys(v).sort().map((k) => JSON.stringify(k) + ':' + text(v[k])).join(',') + '}';
}

const KINDS = { number: 1, string: 2, boolean: 6 };

function kind(v) {
  if (v === null || v === undefined) return 0;
  return typeof v === 'object' ? (Array.isArray(v) ? 4 : 3) : KINDS[typeof v];
}

/** The order of values by which windows are sorted: null, numbers, texts, booleans. */
function order(a, b) {
  const ka = kind(a), kb = kind(b);
  if (ka !== kb) return ka - kb;
  return a < b ? -1 : a > b ? 1 : 0;
}

/** What a path of names reaches through objects. */
function reach(doc, path) {
  let v = doc;
  for (const part of path) {
    if (!isObject(v)) return undefined;
    v = v[part];
  }
  return v;
}

// ------------------------------------------------------------------------------------------------ templates, selectors, modifiers

/** The value with the parameters in its gaps. */
function fill(template, params) {
  if (template === null || typeof template !== 'object') return template;
  if (Array.isArray(template)) return template.map((v) => fill(v, params));
  if ('$param' in template) return params[template.$param];
  const out = {};
  for (const k in template) out[k] = fill(template[k], params);
  return out;
}

const TESTS = {
  $eq: (a) => (v) => same(v === undefined ? null : v, a),
  $gt: (a) => (v) => kind(v) === kind(a) && v > a,
  $gte: (a) => (v) => kind(v) === kind(a) && v >= a,
  $lt: (a) => (v) => kind(v) === kind(a) && v < a,
  $lte: (a) => (v) => kind(v) === kind(a) && v <= a,
  $in: (a) => (v) => a.some((x) => same(v === undefined ? null : v, x)),
};

/** A test of what a path reaches; an operator holds of a list where it holds of an element too. */
function operators(operand) {
  const tests = isObject(operand) && Object.keys(operand)[0]?.startsWith('$')
    ? Object.entries(operand).map(([name, a]) => single(name, a)) : [single('$eq', operand)];
  return tests.length === 1 ? tests[0] : (v) => tests.every((test) => test(v));
}

function single(name, a) {
  if (name === '$exists') return (v) => (v !== undefined) === a;
  if (name === '$ne') {
    const equal = single('$eq', a);
    return (v) => !equal(v);
  }
  const test = TESTS[name](a);
  return (v) => test(v) || (Array.isArray(v) && v.some(test));
}

/** A function of an id and a document that tells whether the selector holds. */
function selector(v) {
  const tests = Object.entries(v).map(([name, operand]) => {
    if (name === '$or') {
      const some = operand.map(selector);
      return (id, doc) => some.some((test) => test(id, doc));
    }
    const test = operators(operand);
    if (name === '_id') return (id) => test(id);
    if (!name.includes('.')) return (_, doc) => test(doc[name]);
    const path = name.split('.');
    return (_, doc) => test(reach(doc, path));
  });
  return tests.length === 1 ? tests[0] : (id, doc) => tests.every((test) => test(id, doc));
}

/** The id that a selector names, if it does. */
function namedId(v) {
  return typeof v._id === 'string' ? v._id : undefined;
}

const EDITS = {
  $set: (_, a) => a,
  $unset: () => undefined,
  $inc: (v, a) => (v === undefined ? a : v + a),
  $push: (v, a) => (v === undefined ? [a] : [...v, a]),
  $addToSet: (v, a) => (v === undefined ? [a] : v.some((x) => same(x, a)) ? v : [...v, a]),
  $pull: (v, a) => (v === undefined ? v : v.filter((x) => !same(x, a))),
};

function edit(value, path, at, make) {
  const old = isObject(value) ? value : {};
  const name = path[at];
  const left = at + 1 === path.length ? make(old[name]) : edit(old[name], path, at + 1, make);
  if (left === undefined) {
    const { [name]: _, ...others } = old;
    return others;
  }
  return { ...old, [name]: left };
}

/** The document that the modifier makes. */
function modified(doc, modifier) {
  for (const operator in modifier) {
    for (const path in modifier[operator]) {
      const operand = modifier[operator][path];
      doc = edit(doc, path.split('.'), 0, (v) => EDITS[operator](v, operand));
    }
  }
  return doc;
}

/** Without `_id`. */
function fieldsOf({ _id, ...fields }) {
  return fields;
}

// ------------------------------------------------------------------------------------------------ stores

/** Documents by collection and id. */
class Documents {
  constructor(names) {
    this.collections = new Map(names.map((name) => [name, new Map()]));
  }

  of(name) {
    let found = this.collections.get(name);
    if (found === undefined) this.collections.set(name, (found = new Map()));
    return found;
  }

  put(name, id, doc) {
    if (doc === undefined) this.of(name).delete(id);
    else this.of(name).set(id, doc);
  }

  /** The ids of which the selector holds, in order; the first of them alone. */
  find(name, wanted, first) {
    const docs = this.of(name), holds = selector(wanted), id = namedId(wanted);
    if (id !== undefined) return docs.has(id) && holds(id, docs.get(id)) ? [id] : [];
    const ids = [];
    for (const [one, doc] of docs) if (holds(one, doc)) ids.push(one);
    ids.sort();
    return first ? ids.slice(0, 1) : ids;
  }

  /** The changes that an operation makes, with the keys that it touched and its answer; null where it is refused. */
  changes(op) {
    const [word, name, what, modifier] = op;
    const docs = this.of(name);
    if (word === 'insert') {
      if (docs.has(what._id)) return null;
      return { changes: [[name, what._id, undefined, fieldsOf(what)]], touched: [[name, what._id]], answer: what._id };
    }
    const ids = this.find(name, what, word === 'update');
    const changes = [];
    for (const id of ids) {
      const before = docs.get(id);
      const after = word === 'remove' ? undefined : modified(before, modifier);
      if (after === undefined || !same(before, after)) changes.push([name, id, before, after]);
    }
    return { changes, touched: ids.map((id) => [name, id]), answer: ids.length };
  }

  print(out) {
    for (const name of [...this.collections.keys()].sort()) {
      const docs = this.collections.get(name);
      for (const id of [...docs.keys()].sort()) out.push(text(['doc', name, id, docs.get(id)]));
    }
  }
}

/** The server's store, with the changes of each entry of its history. */
class Machine {
  constructor(app) {
    this.app = app;
    this.documents = new Documents(app.collections ?? []);
    this.history = [];
    this.batches = new Map();
    this.sources = new Map();
  }

  commit(changes) {
    for (const [name, id, , after] of changes) this.documents.put(name, id, after);
    this.history.push(changes);
    this.batches.clear();
  }

  /** By collection and id, what became of each document between two places. */
  batch(from, to) {
    const key = from * 4194304 + to;
    let found = this.batches.get(key);
    if (found !== undefined) return found;
    found = new Map();
    for (let at = from; at < to; at++) {
      for (const [name, id, before, after] of this.history[at]) {
        let docs = found.get(name);
        if (docs === undefined) found.set(name, (docs = new Map()));
        const net = docs.get(id);
        if (net === undefined) docs.set(id, { before, after, diff: null });
        else net.after = after;
      }
    }
    this.batches.set(key, found);
    return found;
  }

  source(name, params) {
    const key = name + ' ' + JSON.stringify(params);
    let found = this.sources.get(key);
    if (found === undefined) this.sources.set(key, (found = new Source(this, this.app.publications[name], params)));
    return found;
  }

  settled() {
    for (const [key, source] of this.sources) {
      if (source.users === 0) this.sources.delete(key);
      else source.forget();
    }
  }
}

// ------------------------------------------------------------------------------------------------ what publications publish

/** The top-level fields that differ, as name, value before and value after. */
function difference(before, after) {
  const out = [];
  for (const k in after) if (before[k] !== after[k] && !same(before[k], after[k])) out.push([k, before[k], after[k]]);
  for (const k in before) if (!(k in after)) out.push([k, before[k], undefined]);
  return out;
}

/** Parts of documents. */
class Projection {
  constructor(fields) {
    const paths = Object.keys(fields ?? {});
    this.whole = paths.length === 0;
    this.only = !this.whole && fields[paths[0]] === 1;
    this.paths = new Map();
    for (const path of paths) {
      const [first, ...rest] = path.split('.');
      if (!this.paths.has(first)) this.paths.set(first, []);
      if (rest.length > 0) this.paths.get(first).push(rest);
    }
  }

  field(name, value) {
    const rests = this.paths.get(name);
    if (rests === undefined) return this.only ? undefined : value;
    if (rests.length === 0) return this.only ? value : undefined;
    if (!isObject(value)) return this.only ? undefined : value;
    let out = this.only ? {} : value;
    for (const rest of rests) {
      if (!this.only) out = edit(out, rest, 0, () => undefined);
      else if (reach(value, rest) !== undefined) out = edit(out, rest, 0, () => reach(value, rest));
    }
    return out;
  }

  document(doc) {
    if (this.whole || doc === undefined) return doc;
    const out = {};
    for (const k in doc) {
      const v = this.field(k, doc[k]);
      if (v !== undefined) out[k] = v;
    }
    return out;
  }

  difference(diff) {
    if (this.whole) return diff;
    const out = [];
    for (const [name, before, after] of diff) {
      const b = this.field(name, before), a = this.field(name, after);
      if (!same(b, a)) out.push([name, b, a]);
    }
    return out;
  }
}

/** A cursor that publishes every document of which its selector holds. */
class Cursor {
  constructor(rule, params) {
    this.collection = rule.collection;
    this.name = rule.as ?? rule.collection;
    this.holds = selector(fill(rule.selector ?? {}, params));
    this.projection = new Projection(rule.fields);
  }

  all(docs, tell) {
    for (const [id, doc] of docs) if (this.holds(id, doc)) tell(id, this.projection.document(doc));
  }

  tell(id, net, news) {
    const was = net.before !== undefined && this.holds(id, net.before), is = net.after !== undefined && this.holds(id, net.after);
    if (!was && !is) return;
    if (was && is) {
      net.diff ??= difference(net.before, net.after);
      const diff = this.projection.difference(net.diff);
      if (diff.length === 0) return;
      news.push({ name: this.name, id, diff, before: net.before, after: net.after, cursor: this, doc: null, shared: null });
    } else {
      news.push({ name: this.name, id, diff: null, before: was ? net.before : undefined, after: is ? net.after : undefined, cursor: this, doc: null, shared: null });
    }
  }

  step(changed, news) {
    for (const [id, net] of changed) this.tell(id, net, news);
  }
}

/** A cursor with a limit: it keeps the documents that match sorted, and publishes the first of them. */
class Window extends Cursor {
  constructor(rule, params, docs) {
    super(rule, params);
    this.limit = rule.limit;
    this.sort = (rule.sort ?? []).map(([path, way]) => [path.split('.'), way]);
    this.rows = [];
    for (const [id, doc] of docs) if (this.holds(id, doc)) this.rows.push([id, doc]);
    this.rows.sort((a, b) => this.compare(a, b));
    this.shown = new Map(this.rows.slice(0, this.limit));
  }

  compare(a, b) {
    for (const [path, way] of this.sort) {
      const c = order(reach(a[1], path), reach(b[1], path));
      if (c !== 0) return c * way;
    }
    return a[0] < b[0] ? -1 : a[0] > b[0] ? 1 : 0;
  }

  place(row) {
    let low = 0, high = this.rows.length;
    while (low < high) {
      const middle = (low + high) >> 1;
      if (this.compare(this.rows[middle], row) < 0) low = middle + 1;
      else high = middle;
    }
    return low;
  }

  all(_, tell) {
    for (const [id, doc] of this.shown) tell(id, this.projection.document(doc));
  }

  step(changed, news) {
    let moved = false;
    for (const [id, { before, after }] of changed) {
      if (before !== undefined && this.holds(id, before)) {
        this.rows.splice(this.place([id, before]), 1);
        moved = true;
      }
      if (after !== undefined && this.holds(id, after)) {
        const row = [id, after];
        this.rows.splice(this.place(row), 0, row);
        moved = true;
      }
    }
    if (!moved) return;
    const shown = new Map(this.rows.slice(0, this.limit));
    for (const [id, doc] of this.shown) {
      if (!shown.has(id)) this.tellOf(id, doc, undefined, news);
    }
    for (const [id, doc] of shown) {
      const before = this.shown.get(id);
      if (before !== doc) this.tellOf(id, before, doc, news);
    }
    this.shown = shown;
  }

  tellOf(id, before, after, news) {
    let diff = null;
    if (before !== undefined && after !== undefined) {
      diff = this.projection.difference(difference(before, after));
      if (diff.length === 0) return;
    }
    news.push({ name: this.name, id, diff, before, after, cursor: this, doc: null, shared: null });
  }
}

/** The document that is published then, made once. */
function docOf(one) {
  return (one.doc ??= one.cursor.projection.document(one.after));
}

/** A publication with its parameters: what it tells is made once for all subscriptions of it. */
class Source {
  constructor(machine, rules, params) {
    this.machine = machine;
    this.at = machine.history.length;
    this.users = 0;
    this.steps = []; // each begins where the one before ends
    this.made = new Map();
    this.cursors = rules.map((rule) => {
      if (rule.limit === undefined) return new Cursor(rule, params);
      return new Window(rule, params, machine.documents.of(rule.collection));
    });
  }

  /** One step on: what becomes of the documents up to this place. */
  go(to) {
    const news = [], batch = this.machine.batch(this.at, to);
    for (const cursor of this.cursors) {
      const changed = batch.get(cursor.collection);
      if (changed !== undefined) cursor.step(changed, news);
    }
    this.steps.push({ from: this.at, to, news });
    this.at = to;
  }

  /** What the steps between two places tell together. */
  joined(from, to) {
    let low = 0, high = this.steps.length;
    while (low < high) {
      const middle = (low + high) >> 1;
      if (this.steps[middle].from < from) low = middle + 1;
      else high = middle;
    }
    const joined = new Map();
    if (this.steps[low].to === to) return this.steps[low].news;
    for (let at = low; at < this.steps.length && this.steps[at].to <= to; at++) {
      for (const one of this.steps[at].news) {
        const key = one.name + ' ' + one.id, first = joined.get(key);
        joined.set(key, first === undefined ? one : { ...one, before: first.before, diff: null, doc: null, shared: null });
      }
    }
    const news = [];
    for (const one of joined.values()) {
      if (one.before !== undefined && one.after !== undefined && one.diff === null) {
        one.diff = one.cursor.projection.difference(difference(one.before, one.after));
        if (one.diff.length === 0) continue;
      }
      if (one.before !== undefined || one.after !== undefined) news.push(one);
    }
    return news;
  }

  /** The news between two places, made once. */
  news(from, to) {
    if (this.at < to) this.go(to);
    const key = from * 4194304 + to;
    let found = this.made.get(key);
    if (found === undefined) this.made.set(key, (found = this.joined(from, to)));
    return found;
  }

  /** No session asks for anything before this place any more. */
  forget() {
    this.steps = [];
    this.made.clear();
  }

  all(tell) {
    if (this.at < this.machine.history.length) this.go(this.machine.history.length);
    for (const cursor of this.cursors) cursor.all(this.machine.documents.of(cursor.collection), (id, doc) => tell(cursor.name, id, doc));
  }
}

// ------------------------------------------------------------------------------------------------ sessions

/** What a client sees of a document: who publishes it, and for each field who has published it longest. */
class View {
  constructor(sub, fields) {
    this.docs = new Map([[sub, fields]]);
    this.claims = null;
  }

  /** From the second publisher on the claims of each field are kept. */
  share() {
    if (this.claims !== null) return;
    this.claims = new Map();
    for (const [sub, fields] of this.docs) for (const k in fields) this.claims.set(k, [sub]);
  }

  put(sub, name, before, after, tell) {
    let claims = this.claims.get(name);
    if (after === undefined) {
      const at = claims.indexOf(sub);
      claims.splice(at, 1);
      if (claims.length === 0) {
        this.claims.delete(name);
        tell(name, undefined);
      } else if (at === 0) {
        const next = this.docs.get(claims[0])[name];
        if (!same(before, next)) tell(name, next);
      }
      return;
    }
    if (claims === undefined) this.claims.set(name, (claims = []));
    if (before === undefined) claims.push(sub);
    if (claims[0] === sub) tell(name, after);
  }
}

class Session {
  constructor(machine, number) {
    this.machine = machine;
    this.name = 'S' + number;
    this.number = number;
    this.queue = [];
    this.outbox = [];
    this.subs = new Map();
    this.views = new Map();
    this.call = null;
    this.fences = [];
  }

  say(message) {
    this.outbox.push(JSON.stringify(message));
  }

  take(source) {
    const message = JSON.parse(source);
    if (message.msg === 'connect') this.say({ msg: 'connected', session: this.name });
    else this.queue.push(message);
  }

  handle() {
    while (this.call === null && this.queue.length > 0) {
      const message = this.queue.shift();
      if (message.msg === 'sub') {
        const source = this.machine.source(message.name, message.params);
        source.users++;
        this.subs.set(message.id, { id: message.id, source, at: -1, shows: new Set() });
      } else if (message.msg === 'unsub') this.close(this.subs.get(message.id));
      else this.call = message;
    }
  }

  view(name, id) {
    let views = this.views.get(name);
    if (views === undefined) this.views.set(name, (views = new Map()));
    return views.get(id);
  }

  tell(name, id, news) {
    const fields = {}, cleared = [];
    let some = false;
    news((k, v) => {
      if (v === undefined) cleared.push(k);
      else {
        fields[k] = v;
        some = true;
      }
    });
    if (some && cleared.length > 0) this.say({ msg: 'changed', collection: name, id, fields, cleared });
    else if (some) this.say({ msg: 'changed', collection: name, id, fields });
    else if (cleared.length > 0) this.say({ msg: 'changed', collection: name, id, cleared });
  }

  publish(sub, name, id, doc) {
    sub.shows.add(name + ' ' + id);
    const view = this.view(name, id);
    if (view === undefined) {
      this.views.get(name).set(id, new View(sub, doc));
      this.say({ msg: 'added', collection: name, id, fields: doc });
      return;
    }
    view.share();
    view.docs.set(sub, doc);
    this.tell(name, id, (tell) => {
      for (const k in doc) view.put(sub, k, undefined, doc[k], tell);
    });
  }

  retract(sub, name, id) {
    sub.shows.delete(name + ' ' + id);
    const view = this.view(name, id);
    if (view.docs.size === 1) {
      this.views.get(name).delete(id);
      this.say({ msg: 'removed', collection: name, id });
      return;
    }
    const doc = view.docs.get(sub);
    view.docs.delete(sub);
    this.tell(name, id, (tell) => {
      for (const k in doc) view.put(sub, k, doc[k], undefined, tell);
    });
    if (view.docs.size === 1) view.claims = null;
  }

  change(sub, one) {
    const view = this.view(one.name, one.id);
    view.docs.set(sub, docOf(one));
    if (view.claims !== null) {
      this.tell(one.name, one.id, (tell) => {
        for (const [k, before, after] of one.diff) view.put(sub, k, before, after, tell);
      });
      return;
    }
    if (one.shared === null) {
      const at = this.outbox.length;
      this.tell(one.name, one.id, (tell) => {
        for (const [k, , after] of one.diff) tell(k, after);
      });
      one.shared = this.outbox[at];
    } else this.outbox.push(one.shared);
  }

  close(sub) {
    this.subs.delete(sub.id);
    sub.source.users--;
    for (const key of [...sub.shows]) {
      const at = key.indexOf(' ');
      this.retract(sub, key.slice(0, at), key.slice(at + 1));
    }
    this.say({ msg: 'nosub', id: sub.id });
    this.fire();
  }

  load() {
    let some = false;
    for (const sub of this.subs.values()) {
      if (sub.at >= 0) continue;
      sub.source.all((name, id, doc) => this.publish(sub, name, id, doc));
      sub.at = this.machine.history.length;
      this.say({ msg: 'ready', subs: [sub.id] });
      this.fire();
      some = true;
    }
    return some;
  }

  advance() {
    let some = false;
    const to = this.machine.history.length;
    for (const sub of this.subs.values()) {
      if (sub.at === to) continue;
      for (const one of sub.source.news(sub.at, to)) {
        if (one.before === undefined) this.publish(sub, one.name, one.id, docOf(one));
        else if (one.after === undefined) this.retract(sub, one.name, one.id);
        else this.change(sub, one);
      }
      sub.at = to;
      this.fire();
      some = true;
    }
    return some;
  }

  learn(outcome) {
    const { id } = this.call;
    this.call = null;
    const message = { msg: 'result', id };
    if (outcome.error !== undefined) message.error = { error: outcome.error[0], errorType: 'Meteor.Error', reason: outcome.error[1], message: outcome.error[1] + ' [' + outcome.error[0] + ']' };
    else if (outcome.value !== undefined) message.result = outcome.value;
    this.say(message);
    this.fences.push([id, this.machine.history.length]);
    this.fire();
  }

  fire() {
    if (this.fences.length === 0) return;
    let least = Infinity;
    for (const sub of this.subs.values()) least = Math.min(least, sub.at);
    this.fences = this.fences.filter(([id, at]) => {
      if (at > least) return true;
      this.say({ msg: 'updated', methods: [id] });
      return false;
    });
  }
}

// ------------------------------------------------------------------------------------------------ programs

/** Whether a rule of this list holds of a write: its place, or -1. */
function ruled(rules, on, id, doc, fields, touches) {
  return rules.findIndex((rule) => rule.on === on && (rule.selector === undefined || selector(rule.selector)(id, doc))
    && (rule.fields === undefined || touches(rule.fields, fields)));
}

const allIn = (names, fields) => fields.every((name) => names.includes(name));
const someIn = (names, fields) => fields.some((name) => names.includes(name));

/** Why a client's own write is refused, if it is. */
function refusal(rules, on, id, doc, modifier) {
  const fields = on === 'update' ? Object.values(modifier).flatMap((edits) => Object.keys(edits).map((path) => path.split('.')[0])) : [];
  const denied = ruled(rules.deny ?? [], on, id, doc, fields, someIn);
  if (denied >= 0) return ['403', 'Denied by rule ' + denied];
  if (ruled(rules.allow ?? [], on, id, doc, fields, allIn) < 0) return ['403', 'No rule allows'];
  return undefined;
}

/** The steps of a method: those of its program, or the one of a collection with rules. */
function programOf(app, method) {
  const program = app.methods?.[method];
  if (program !== undefined) return { steps: program.steps, stub: program.stub === true ? program.steps : program.stub };
  const [, name, word] = method.split('/');
  const steps = [['guarded', name, word]];
  return { steps, stub: steps };
}

/** Runs steps over documents; `made` is told of what each of them writes and touches. Answers the outcome. */
function run(app, steps, params, documents, made) {
  for (const step of steps) {
    const { changes = [], touched = [], outcome } = stepped(app, step, params, documents);
    made(changes, touched);
    if (outcome !== undefined) return outcome;
  }
  return {};
}

function written(documents, op) {
  return documents.changes(op) ?? { outcome: { error: ['409', 'Duplicate id'] } };
}

/** What one step writes and touches, and the outcome where it is the last. */
function stepped(app, step, params, documents) {
  const [word, name] = step;
  switch (word) {
    case 'guarded': return guarded(app, step, params, documents);
    case 'return': return { outcome: { value: fill(name, params) } };
    case 'require':
      if (documents.find(name, fill(step[2], params), true).length > 0) return {};
      return { outcome: { error: [String(step[3]), step[4]] } };
    default: return written(documents, [word, name, ...step.slice(2).map((v) => fill(v, params))]);
  }
}

/** A client's own write, which goes by the rules of its collection. */
function guarded(app, [, name, on], [first, modifier], documents) {
  const id = on === 'insert' ? first._id : first, doc = on === 'insert' ? fieldsOf(first) : documents.of(name).get(id);
  if (doc === undefined) return { outcome: { value: 0 } };
  const error = refusal(app.rules[name], on, id, doc, modifier);
  if (error !== undefined) return { outcome: { error } };
  const done = written(documents, on === 'insert' ? [on, name, first] : [on, name, { _id: id }, modifier]);
  return done.outcome === undefined ? { ...done, outcome: { value: done.answer } } : done;
}

// ------------------------------------------------------------------------------------------------ clients

class Client {
  constructor(app, name) {
    this.app = app;
    this.name = name;
    this.waiting = [JSON.stringify({ msg: 'connect', version: '1', support: ['1'] })];
    this.view = new Documents([]);
    this.saved = new Map();
    this.subs = new Map();
    this.calls = [];
  }

  sub(id, name, params) {
    this.subs.set(id, 'waiting');
    this.waiting.push(JSON.stringify({ msg: 'sub', id, name, params }));
  }

  unsub(id) {
    this.waiting.push(JSON.stringify({ msg: 'unsub', id }));
  }

  /** The server's document of a key is saved as long as a call holds it. */
  hold(call, name, id) {
    const key = name + ' ' + id;
    let saved = this.saved.get(key);
    if (saved === undefined) this.saved.set(key, (saved = { name, id, doc: this.view.of(name).get(id), calls: new Set() }));
    saved.calls.add(call);
    call.holds.add(key);
  }

  call(method, params) {
    const call = { outcome: null, updated: false, holds: new Set() }, { stub } = programOf(this.app, method);
    this.calls.push(call);
    if (stub !== undefined) {
      run(this.app, stub, params, this.view, (changes, touched) => {
        for (const [name, id] of touched) this.hold(call, name, id);
        for (const [name, id, , after] of changes) this.view.put(name, id, after);
      });
    }
    this.waiting.push(JSON.stringify({ msg: 'method', id: String(this.calls.length), method, params, randomSeed: this.session + '-' + this.calls.length }));
  }

  take(source) {
    const message = JSON.parse(source);
    switch (message.msg) {
      case 'connected':
        this.session = message.session;
        return;
      case 'ready':
        for (const id of message.subs) this.subs.set(id, 'ready');
        return;
      case 'nosub':
        this.subs.set(message.id, 'ended');
        return;
      case 'result':
        this.calls[message.id - 1].outcome = message;
        return;
      case 'updated':
        for (const id of message.methods) this.release(this.calls[id - 1]);
        return;
      default:
        this.data(message);
    }
  }

  data({ msg, collection, id, fields, cleared }) {
    const saved = this.saved.get(collection + ' ' + id);
    const old = saved === undefined ? this.view.of(collection).get(id) : saved.doc;
    let doc;
    if (msg === 'added') doc = fields;
    else if (msg === 'changed') {
      doc = { ...old, ...fields };
      for (const name of cleared ?? []) delete doc[name];
    }
    if (saved === undefined) this.view.put(collection, id, doc);
    else saved.doc = doc;
  }

  release(call) {
    call.updated = true;
    for (const key of call.holds) {
      const saved = this.saved.get(key);
      saved.calls.delete(call);
      if (saved.calls.size > 0) continue;
      this.saved.delete(key);
      this.view.put(saved.name, saved.id, saved.doc);
    }
    call.holds.clear();
  }

  print(out) {
    out.push(text(['show', this.name]));
    this.view.print(out);
    for (const id of [...this.subs.keys()].sort()) out.push(text(['sub', id, this.subs.get(id)]));
    this.calls.forEach(({ outcome, updated }, i) => {
      const line = ['method', String(i + 1)];
      if (outcome === null || !updated) line.push('waiting');
      else if (outcome.error !== undefined) line.push('failed', outcome.error.error, outcome.error.reason);
      else if (outcome.result === undefined) line.push('done');
      else line.push('done', outcome.result);
      out.push(text(line));
    });
  }
}

// ------------------------------------------------------------------------------------------------ a world

class World {
  constructor(app) {
    this.app = app;
    this.machine = new Machine(app);
    this.ends = new Map();
    this.sorted = [];
  }

  end(name) {
    const end = { name, client: new Client(this.app, name), session: new Session(this.machine, this.ends.size + 1) };
    this.ends.set(name, end);
    this.sorted = [...this.ends.values()].sort((a, b) => (a.name < b.name ? -1 : 1));
  }

  /** One client's turn. Whether anything was done. */
  turn({ client, session }) {
    let did = client.waiting.length > 0 || session.queue.length > 0;
    for (const source of client.waiting) session.take(source);
    client.waiting = [];
    session.handle();
    if (session.call !== null) {
      this.machine.commit([]);
      const { method, params } = session.call;
      session.learn(run(this.app, programOf(this.app, method).steps, params, this.machine.documents, (changes) => this.machine.commit(changes)));
    }
    if (session.load()) did = true;
    if (session.advance()) did = true;
    if (session.outbox.length > 0) did = true;
    for (const source of session.outbox) client.take(source);
    session.outbox = [];
    return did;
  }

  settle() {
    for (let did = true; did;) {
      did = false;
      for (const end of this.sorted) if (this.turn(end)) did = true;
    }
    this.machine.settled();
  }

  event([word, name, ...rest], out) {
    switch (word) {
      case 'client': return this.end(name);
      case 'sub': return this.ends.get(name).client.sub(rest[0], rest[1], rest[2] ?? []);
      case 'unsub': return this.ends.get(name).client.unsub(rest[0]);
      case 'call': return this.ends.get(name).client.call(rest[0], rest[1] ?? []);
      case 'admin': return this.machine.commit(this.machine.documents.changes(name).changes);
      case 'settle': return this.settle();
      case 'show': return this.ends.get(name).client.print(out);
      case 'store':
        out.push(text(['store', this.machine.history.length]));
        return this.machine.documents.print(out);
      default: throw new Error('no event of these inputs: ' + word);
    }
  }
}

function main() {
  const lines = fs.readFileSync(0, 'utf8').split('\n');
  const world = new World(JSON.parse(lines[0])), out = [];
  for (let i = 1; i < lines.length; i++) if (lines[i] !== '') world.event(JSON.parse(lines[i]), out);
  if (out.length > 0) fs.writeSync(1, out.join('\n') + '\n');
}

main();
