// What the real Yjs takes of an update, what it leaves pending and what it misses, held against an answer by rule 13 (that of the model, which operation 25
// is held to, or that of the library: compare/judge.cjs): a document that has the vector's state gets the update, and its state and its pending blocks are
// looked at. Nothing of the answer is worked out here. `across` says that by rule 28 a block is taken across a gap: that is counted apart.
'use strict'
const { Y, own, attempt, read, theirRecord, ourRecord, meant } = require('./yjs.cjs')
const { ordered } = require('./yjs-diffs.cjs')
const spelling = require('./spelling.cjs')
const { section } = require('./shapes.cjs')
const { hex } = require('./stream.cjs')

// A document that no client of a case has made.
const empty = () => {
  const doc = new Y.Doc()
  doc.clientID = 2 ** 45 + 1
  return doc
}
// One that has a vector's state: something deleted up to each clock.
const holding = entries => {
  const doc = empty()
  const sections = entries.filter(e => e.clock > 0n).map(e => section(e.client, 0, { info: 1, name: '', length: e.clock }))
  Y.applyUpdate(doc, own(spelling.update(1, { sections })))
  return doc
}

const apply = (doc, form, update) => form === 1 ? Y.applyUpdate(doc, own(update)) : Y.applyUpdateV2(doc, own(update))

// Whether a client waits for itself: for one that waits for one that waits .. for it. `next` says whom a client waits for.
const inCircle = (next, client) => {
  let at = next.get(client)
  for (let k = 0; k < next.size && at !== undefined && at !== client; k++) at = next.get(at)
  return at === client
}
// Clients wait for each other in a circle, and one has more blocks behind: Yjs takes the next of these for its front, and the front is lost. A block above
// its own client's reach waits for no other there.
const loses = r => {
  const reach = new Map(r.reaches)
  const next = new Map(r.pending.filter((_, k) => r.fronts[k].clock <= reach.get(r.fronts[k].client)))
  return [...next.keys()].some(client => inCircle(next, client) && r.rest.filter(b => b.client === client).length > 1)
}

const isSkip = record => record.split(' ')[3] === 'skip'
const isEmpty = record => record.split(' ')[2] === '0'

const reached = (r, doc) => {
  const state = new Map([...Y.decodeStateVector(Y.encodeStateVector(doc))].filter(([, clock]) => clock > 0))
  const reaches = r.reaches.filter(([, clock]) => clock > 0n)
  return reaches.length === state.size && reaches.every(([client, clock]) => BigInt(state.get(Number(client)) ?? 0) === clock)
}

// The document after it got the update, against the answer by rule 13: reaches, pending blocks, and what they wait for. Blocks of length 0 are not
// looked at. A document that had pending blocks `before` has put its Skips anew, and what it waits for may be of then.
const hold = (check, form, update, r, doc, before = false) => {
  const { pendingStructs } = doc.store
  check('reaches', reached(r, doc))
  const records = all => all.filter(x => !isEmpty(x) && !(before && isSkip(x))).join('\n')
  const theirs = pendingStructs === null ? [] : Y.decodeUpdateV2(pendingStructs.update).structs
  check('pending blocks', records(theirs.map(theirRecord)) === records(r.rest.map(ourRecord(update)).map(meant(form))))
  if (before) return
  // Yjs notes its walls: a client that has no more blocks, with its reach; and, before it looks at ids, a client whose block is above its own reach, with the
  // clock below that block. The lower one is kept.
  const missing = pendingStructs?.missing ?? new Map()
  const noted = client => missing.has(Number(client)) ? BigInt(missing.get(Number(client))) : null
  const reach = new Map(r.reaches)
  const fronts = new Map(r.fronts.map(b => [b.client, b]))
  const above = client => fronts.has(client) && fronts.get(client).clock > reach.get(client)
  const below = client => above(client) ? fronts.get(client).clock - 1n : null
  check('walls', r.pending.every(([client, other, clock]) => above(client) ? noted(client) !== null && noted(client) <= below(client)
    : fronts.has(other) || noted(other) === clock))
  check('what is missing', [...missing.keys()].map(BigInt).every(client => noted(client) === below(client) ||
    (noted(client) === (reach.get(client) ?? 0n) && r.pending.some(([, other]) => other === client))))
}

// How many sorts: equal, and by rule 28 no block is taken across a gap; equal, and by rule 28 one is. Not held against each other: an update with a flag over 127;
// one with a value that JavaScript does not have;
// a circle with more blocks behind (Yjs loses some); a block of length 0, where Yjs throws; a block that names an id of its own client that is not there
// (just then it throws, too). Then sorts by documents that had the vector's state by edits, and by such that had pending blocks before, some of which were late.
const counts = { equal: 0, across: 0, flag: 0, beyond: 0, circle: 0, empty: 0, own: 0, edited: 0, 'edited across': 0, again: 0, 'again across': 0, late: 0 }

const checking = (form, update, vector) => (what, holds) => {
  if (!holds) throw new Error(`the model and Yjs part at ${what}: form ${form}, ${hex(update)} against ${hex(vector)}`)
}
// Yjs takes what it takes as garbage: then contents and parents that make no sense do no harm, and which blocks are taken is not changed.
const asGarbage = run => {
  const { integrate } = Y.Item.prototype
  Y.Item.prototype.integrate = function (transaction, offset) {
    new Y.GC(Y.createID(this.id.client, this.id.clock), this.length).integrate(transaction, offset)
  }
  try {
    return run()
  } finally {
    Y.Item.prototype.integrate = integrate
  }
}

// `r` is the answer by rule 13, rows without end, and not refused. Yjs gets the update in document 01's order, without items of length 0 and without deletes.
const compare = (form, update, vector, r, across) => {
  if (form === 2 && update[0] > 127) return counts.flag++
  if (r.read.blocks.map(ourRecord(update)).map(meant(form)).includes(null)) return counts.beyond++
  const check = checking(form, update, vector)
  const doc = holding(r.entries)
  const { structs } = read(form, update)
  const done = attempt(() => asGarbage(() => {
    apply(doc, form, ordered(form, { structs, ds: { clients: new Map() } }))
    return true
  }))
  if (loses(r)) return counts.circle++
  if (r.read.blocks.some(b => b.length === 0n) && (r.hung || done === null)) return counts.empty++
  check('an error', r.hung === (done === null))
  if (r.hung) return counts.own++
  hold(check, form, update, r, doc)
  counts[across ? 'across' : 'equal']++
}

// The same with a document that is given: it has the vector's state by edits, and no error is left out.
const compareDocument = (form, update, vector, r, across, doc) => {
  const check = checking(form, update, vector)
  check('an id that is not there', !r.hung && !loses(r))
  apply(doc, form, update)
  hold(check, form, update, r, doc)
  counts[across ? 'edited across' : 'edited']++
}

// The same with a document that had pending blocks and got something: the update is both together. Yjs notes one wall where several clients wait, perhaps
// a higher one than some of them wait for, and looks at its pending blocks no sooner; asked again, it takes them.
const compareAgain = (form, update, vector, r, across, doc) => {
  const check = checking(form, update, vector)
  if (!reached(r, doc)) {
    counts.late++
    askAgain(doc)
  }
  hold(check, form, update, r, doc, true)
  counts[across ? 'again across' : 'again']++
}
const askAgain = doc => {
  const { update } = doc.store.pendingStructs
  doc.store.pendingStructs = null
  Y.applyUpdateV2(doc, update)
}

module.exports = {
  empty, holding, apply, askAgain, inCircle, compare, compareDocument, compareAgain,
  told: () => Object.entries(counts).map(([what, n]) => `${what} ${n}`).join('  ')
}
