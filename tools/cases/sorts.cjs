// Writes the sorts of the case program and what it is expected to print: sorts.cjs FOLDER writes FOLDER/sorts.stdin and FOLDER/sorts.stdout.
// The same every time. `run` beside it installs what this needs.
'use strict'
const fs = require('fs')
const path = require('path')
const c = require('./sort-cases.cjs')
const s = require('./spelling.cjs')
const yjsSorts = require('./yjs-sorts.cjs')
const { Y } = require('./yjs.cjs')
const { whole } = require('./update-cases.cjs')
const { hex } = require('./stream.cjs')
const { gc, skip, section, replaced, ...shape } = require('./shapes.cjs')
const { begin, many } = require('./random.cjs')

const folder = process.argv[2]
const loose = begin(0x3c6ef372)
const { random, pick } = loose
const documents = require('./documents.cjs').begin(loose)
const { some, someClient, damaged, shuffled, tangled } = shape.begin(loose)
const fitted = (...of) => c.fitted(random, ...of)
const forms = [1, 2]
const least = (what, n, wanted) => {
  if (n < wanted) throw new Error(`just ${n} ${what}`)
}
const vectorOf = (entries, spelt = null) => [...s.u(entries.length, spelt), ...entries.flatMap(([client, clock]) => [...s.u(client, spelt), ...s.u(clock, spelt)])]

require('./sorts-by-hand.cjs').all()

// ---- updates by Yjs, against the state of documents that Yjs has edited

const byYjs = []
const seen = new Set()
// A document's vector: mostly as Yjs writes it, else in another order, spelt longer, with clients at 0, with a byte behind.
const vectorsOf = doc => {
  const bytes = [...Y.encodeStateVector(doc)]
  if (random(4) > 0) return bytes
  const entries = [...Y.decodeStateVector(Uint8Array.from(bytes))]
  const zeros = many(random(3), () => Number(someClient())).filter(client => !entries.some(([other]) => other === client)).map(client => [client, 0])
  return [...vectorOf(shuffled([...entries, ...new Map(zeros)]), loose), ...(random(3) === 0 ? [255] : [])]
}
// `compare` has a document with the vector's state and gives it the update.
const real = (kind, form, update, vector, doc, compare = yjsSorts.compareDocument) => {
  const key = [form, hex(update), hex(vector)].join()
  if (update.length > 150 || seen.has(key) || whole(form, update).number !== 0) return
  seen.add(key)
  const r = c.answer(form, update, vector)
  compare(form, update, vector, c.answer13(form, update, vector), r.across, doc)
  fitted(form, update, vector, byYjs.length)
  byYjs.push({ kind, form, r })
}

const merged = (form, sent) => [...(form === 1 ? Y.mergeUpdates(sent.map(x => x.one)) : Y.mergeUpdatesV2(sent.map(x => x.two)))]
// What was sent, and can be read.
const readable = sent => sent.filter(x => whole(1, [...x.one]).number === 0)
const held = (sent, numbers) => {
  const doc = yjsSorts.empty()
  for (const n of documents.closed(sent, numbers)) Y.applyUpdate(doc, sent[n].one)
  if (doc.store.pendingStructs !== null) throw new Error('a state that is not closed')
  return doc
}
// Against the state after these edits: the form's update of some others.
const against = (kind, form, sent, numbers, some) => {
  if (some.length === 0) return
  const doc = held(sent, numbers)
  real(kind, form, merged(form, some), vectorsOf(doc), doc)
}
// Against the same: what a document has after others, perhaps without what a vector knows.
const heldAgainst = (kind, form, sent, numbers, later, vector) => {
  const [doc, other] = [held(sent, numbers), held(sent, later)]
  real(kind, form, [...(form === 1 ? Y.encodeStateAsUpdate(other, vector) : Y.encodeStateAsUpdateV2(other, vector))], vectorsOf(doc), doc)
}

// One client types letters, the other has them all and types behind one of them, or in between: the vector has any number of the letters, and the update
// the other's edit, alone or with the letters behind a missing one; or all, where letters are joined to blocks that are known in part. So with arrays in a
// map, where the other puts something inside; and with what is garbage in the end.
for (const clients of [[9, 5], [5, 9], [300, 70000], [2 ** 53 - 1, 0]]) {
  const speak = (turns, who, say) => documents.conversation({ clients, gc: true, turns, who, hears: () => true, say })
  for (let k = 0; k < 4; k++) {
    const sent = speak(5, n => n >> 2, (doc, n) => n < 4 ? doc.getText('t').insert(n, pick(['a', 'b', 'é'])) : doc.getText('t').insert(k + 1, 'xy'))
    for (let j = 0; j <= 4; j++) {
      const first = many(j, n => n)
      against('a letter', pick(forms), sent, first, [sent[4]])
      if (j < 3) against('a letter, and letters behind a gap', pick(forms), sent, first, sent.slice(j + 1))
      if (j > 0) heldAgainst('letters, joined', pick(forms), sent, first, many(5, n => n))
    }
  }
  for (let k = 0; k < 3; k++) {
    const boxes = doc => doc.getMap('boxes')
    const put = doc => boxes(doc).get(`${k}`).insert(0, [Uint8Array.of(k), Uint8Array.of(7)])
    const sent = speak(4, n => n < 3 ? 0 : 1, (doc, n) => n < 3 ? boxes(doc).set(`${n}`, new Y.Array()) : put(doc))
    for (let j = 0; j <= 3; j++) against('inside a type', pick(forms), sent, many(j, n => n), [sent[3]])
  }
  // A text in a map, and in it both type by turns; then it is deleted, and what was in it is garbage.
  const sent = speak(6, n => n % 2, (doc, n) => {
    const boxes = doc.getMap('boxes')
    if (n === 0) boxes.set('k', new Y.Text())
    else if (n < 4) boxes.get('k').insert(n - 1, 'a')
    else if (n === 4) boxes.delete('k')
    else doc.getText('t').insert(0, 'bc')
  })
  for (let j = 0; j <= 5; j++) for (const form of forms) heldAgainst('garbage', form, sent, many(j, n => n), many(6, n => n))
}

// Everyone answers the one before, behind or before its text, in rounds: the state after the first few, then the rest, whole or with one missing, or two. So
// there are chains across clients, and behind what is missing they wait in circles.
for (const clients of [[5, 9], [9, 5], [1, 2, 3], [3, 2, 1], [7, 70000, 300], [4, 1, 3, 2], [128, 2 ** 40, 127, 0]]) {
  const n = clients.length
  for (const at of [text => text.length, () => 0, text => text.length >> 1]) {
    const say = doc => doc.getText('t').insert(at(doc.getText('t')), pick(['a', 'bc']))
    const sent = documents.conversation({ clients, gc: true, turns: 3 * n, who: k => k % n, hears: () => true, say })
    for (const known of [0, 1, n - 1, n, n + 1]) {
      const numbers = many(known, k => k)
      const rest = sent.slice(known)
      against('answers', pick(forms), sent, numbers, rest)
      const out = known % 2 === 0 ? known + random(rest.length - 1) : sent.length - 2 - random(n)
      against('answers, one missing', pick(forms), sent, numbers, sent.filter((x, k) => k >= known && k !== out))
      if (known % 2 === 0) against('answers, two missing', pick(forms), sent, numbers, rest.filter((x, k) => k !== 0 && k !== n + 1))
    }
    if (n === 3) sent.forEach((_, out) => against('answers, one missing', pick(forms), sent, [], sent.filter((x, k) => k !== out)))
  }
}

// Edits of all kinds, by clients that have heard of some of the others'; the last one deletes all types, which leaves GCs, and something of each text. The
// state is what some of them rest on.
const deletes = doc => {
  const boxes = doc.getMap('boxes')
  for (const key of [...boxes.keys()]) boxes.delete(key)
  for (const name of documents.names) {
    const text = doc.getText(name)
    if (text.length > 0) text.delete(0, 1 + random(text.length))
  }
}
const groups = [[5], [1, 2], [1, 2, 3], [300, 70000, 9, 4], [0, 127, 128], [4294967295, 2147483648, 1234567890], [9007199254740991, 0, 1099511627776]]
const talks = many(42, k => {
  const clients = groups[k % groups.length]
  const last = 7 + random(5)
  return documents.conversation({
    clients,
    gc: k % 5 !== 4,
    turns: last + 1,
    who: () => random(clients.length),
    hears: (n, turn) => turn === last || random(4) > 0,
    say: (doc, turn) => turn === last ? deletes(doc) : documents.edit(doc, k % 2 === 1)
  })
})
const someOf = all => all.filter(() => random(3) > 0)
talks.forEach(sent => {
  const all = sent.map((_, n) => n)
  const numbers = () => pick([() => [], () => many(random(sent.length), n => n), () => all.filter(() => random(4) === 0)])()
  const letters = readable(sent)
  for (let j = 0; j < 9; j++) {
    const form = pick(forms)
    const known = numbers()
    const behind = letters.filter(x => !documents.closed(sent, known).includes(sent.indexOf(x)))
    switch (j) {
      case 0: against('sent', form, sent, known, [pick(letters)]); break
      case 1: case 2: against('merged with gaps', form, sent, known, someOf(letters)); break
      case 3: case 4: against('what is left, with gaps', form, sent, known, someOf(behind)); break
      case 5: against('what is left', form, sent, known, behind); break
      case 6: heldAgainst('held', form, sent, known, all); break
      // A block may be cut.
      case 7: {
        const later = pick([all, numbers()])
        const state = [...Y.decodeStateVector(Y.encodeStateVector(held(sent, later)))]
        const vector = Y.encodeStateVector(new Map(state.map(([client, clock]) => [client, random(clock + 1)])))
        heldAgainst('held, without what a vector knows', form, sent, known, later, vector)
        break
      }
      // What a document keeps back for later.
      default: {
        const doc = yjsSorts.empty()
        someOf(letters).forEach(x => Y.applyUpdate(doc, x.one))
        if (doc.store.pendingStructs === null) break
        const two = doc.store.pendingStructs.update
        const from = held(sent, known)
        real('kept back', form, [...(form === 2 ? two : Y.convertUpdateFormatV2ToV1(two))], vectorsOf(from), from)
      }
    }
  }
})
// A document gets all of them in any order, and keeps back what cannot be taken yet: each that comes, with what waits for it.
talks.filter((sent, k) => k % 3 === 0 && k % groups.length > 0).forEach(sent => {
  const doc = yjsSorts.empty()
  for (const x of shuffled(readable(sent))) {
    const vector = [...Y.encodeStateVector(doc)]
    const waiting = doc.store.pendingStructs === null ? [] : [doc.store.pendingStructs.update]
    const two = Y.mergeUpdatesV2([...waiting, x.two])
    const form = pick(forms)
    yjsSorts.apply(doc, form, form === 1 ? x.one : x.two)
    real('came out of order', form, [...(form === 2 ? two : Y.convertUpdateFormatV2ToV1(two))], vector, doc, yjsSorts.compareAgain)
  }
})
least('sorts of updates by Yjs', byYjs.length, 800)

// What they have in them: how many in each form.
const reach = (r, client) => new Map(r.reaches).get(client) ?? 0n
const entry = (r, client) => r.entries.find(e => e.client === client)?.clock ?? 0n
const taken = r => r.read.blocks.filter(b => !r.rest.includes(b))
const others = b => [b.left, b.right, b.parent].filter(id => id !== null && id.client !== b.client)
const unmet = (r, b) => others(b).find(id => id.clock >= reach(r, id.client))
const next = r => new Map(r.pending)
const circle = r => r.pending.some(([client]) => yjsSorts.inCircle(next(r), client))
const named = (r, client) => r.reaches.some(([other]) => other === client)
// One client, another one, and then the first again.
const inTurns = r => {
  const clients = r.order.map(n => r.read.blocks[n].client)
  return clients.some((client, k) => k > 0 && client !== clients[k - 1] && clients.indexOf(client) < k)
}
const kind = what => r => r.read.blocks.some(b => b.kind === what)
const features = {
  'all taken': [60, r => r.order.length > 0 && r.rest.length === 0],
  'all pending': [30, r => r.order.length === 0 && r.rest.length > 0],
  'some of both': [50, r => r.order.length > 0 && r.rest.length > 0],
  'across a gap': [30, r => r.across],
  'a Skip': [30, kind('skip')],
  'a Skip that is left': [5, r => r.rest.some(b => b.kind === 'skip')],
  'an id at the reach': [30, r => r.fronts.some(b => others(b).some(id => id.clock === reach(r, id.client)))],
  'an id one below the vector': [30, r => taken(r).some(b => others(b).some(id => id.clock === entry(r, id.client) - 1n))],
  'a client no one names': [10, r => r.pending.some(([, missing]) => !named(r, missing))],
  'a circle': [10, circle],
  'waiting for one that waits': [20, r => r.pending.some(([, missing]) => next(r).has(missing))],
  'waiting by the right id': [5, r => r.fronts.some(b => unmet(r, b) === b.right)],
  'waiting by the parent id': [10, r => r.fronts.some(b => unmet(r, b) === b.parent)],
  'a parent id met': [10, r => taken(r).some(b => others(b).includes(b.parent))],
  'turns between clients': [20, inTurns],
  'a block known in part': [10, r => r.read.blocks.some(b => b.clock < entry(r, b.client) && b.clock + b.length > entry(r, b.client))],
  'a block known': [30, r => r.read.blocks.some(b => b.clock + b.length <= entry(r, b.client))],
  'three sections': [40, r => r.taken.length > 2],
  gc: [10, kind('gc')],
  deleted: [20, kind('deleted')],
  binary: [50, kind('binary')],
  text: [50, kind('text')]
}
const has = Object.entries(features).map(([what, [wanted, test]]) => {
  const n = forms.map(form => byYjs.filter(x => x.form === form && test(x.r)).length)
  least(`sorts of updates by Yjs with ${what}`, Math.min(...n), wanted)
  return `${what} ${n.join('+')}`
})
const kinds = [...new Set(byYjs.map(x => x.kind))].map(kind => `${kind} ${byYjs.filter(x => x.kind === kind).length}`)

// ---- ids among few clients at low clocks, in all shapes, against vectors of these and other clients

const pools = [[5, 7, 9], [0, 127, 128, 70000], [2n ** 53n - 1n, 2n ** 32n, 9, 5, 0]]
const someVector = pool => vectorOf(shuffled([...pool, 6, 77].filter(() => random(3) === 0)).map(client => [client, random(5)]), random(3) === 0 ? loose : null)
const shapes = many(400, k => {
  const form = forms[k % 2]
  const pool = pools[(k >> 1) % 3]
  const deletes = random(6) === 0 ? [[5, [[random(3), 2]]]] : []
  return { form, update: s.update(form, { sections: tangled(pool), deletes }, k % 8 < 6 ? null : loose), vector: k % 7 === 0 ? [0] : someVector(pool) }
})
// Clients, clocks and lengths of all sizes.
const far = many(50, k => {
  const form = forms[k % 2]
  const of = some(form)
  const entries = new Map([...of.sections.map(x => x.client), ...of.sections.flatMap(x => x.blocks.filter(b => b.left !== undefined).map(b => b.left[0])), someClient()]
    .filter(() => random(2) === 0).map(client => [client, pick([0, 1, random(100), random(100000), 2 ** 31 - 1])]))
  return { form, update: s.update(form, of, k % 4 < 2 ? null : loose), vector: vectorOf(shuffled([...entries])) }
})
;[...shapes, ...far].forEach(({ form, update, vector }, k) => fitted(form, update, vector, k))
const answered = [...shapes, ...far].map(({ form, update, vector }) => c.answer(form, update, vector)).filter(r => r.number === 0)
least('shapes with some taken and some pending', answered.filter(r => r.order.length > 0 && r.rest.length > 0).length, 120)
least('shapes with a circle', answered.filter(circle).length, 15)
const ruled = [...shapes, ...far].filter(({ form, update, vector }) => c.answer(form, update, vector).number === 0)
  .map(({ form, update, vector }) => ({ r: c.answer(form, update, vector), r13: c.answer13(form, update, vector) }))
least('shapes that the rules sort differently', ruled.filter(x => x.r.across).length, 60)
least('shapes with a client that waits for itself', ruled.filter(x => x.r13.pending.some(([client, missing]) => client === missing)).length, 60)
least('shapes with a client behind a gap that waits for another', ruled.filter(x => x.r13.pending.some(([client, missing], k) =>
  client !== missing && x.r13.fronts[k].clock > reach(x.r13, client))).length, 20)
least('shapes in turns between clients', answered.filter(inTurns).length, 40)

// ---- rows about what is needed: of blocks, ranges and steps

const waiting = client => ({ info: 129, left: [client, 0], length: 1 })
const three = form => s.update(form, {
  sections: [section(5, 0, gc(1), waiting(9), waiting(7)), section(9, 1, skip(1), gc(0))],
  deletes: [[5, [[0, 1], [1, 1]]], [9, [[4, 1]]]]
})
for (const form of forms) {
  for (const vector of [[0], [1, 7, 1]]) for (let n = 0; n <= 6; n++) c.sort(form, three(form), vector, { blockRows: 5, rangeRows: 3, orderRows: n })
  for (let b = 3; b <= 6; b++) for (let d = 1; d <= 4; d++) c.sort(form, three(form), [0], { blockRows: b, rangeRows: d, orderRows: 3 + (b + d) % 2 })
}

// ---- damage: every prefix of an update and of a vector, bytes changed, short rows beside it

const known = vectorOf([[9, 5], [300, 70], [5, 2]])
for (const form of forms) {
  const update = three(form)
  for (let n = 0; n < update.length; n++) c.sort(form, update.slice(0, n), pick([known, [1], [2, 5, 0, 5]]), pick([{}, { orderRows: 0 }, { blockRows: 1 }]))
  for (let n = 0; n < known.length; n++) c.sort(form, update, known.slice(0, n), n % 3 === 0 ? { orderRows: 2 } : {})
  known.forEach((b, k) => {
    for (const x of new Set([0, b ^ 1, b ^ 64, b ^ 128])) if (x !== b) c.sort(form, update, replaced(known, k, x))
  })
  // A vector's limits, and its client again.
  for (const x of [2n ** 31n - 1n, 2n ** 31n, 2n ** 53n - 1n, 2n ** 53n]) {
    c.sort(form, update, vectorOf([[5, x]]))
    c.sort(form, update, vectorOf([[x, 1]]))
    c.sort(form, update, vectorOf([[x, 1], [x, 2]]), { orderRows: 0 })
  }
  for (const n of [63, 64, 65, 128]) c.sort(form, update, [...s.u(n), ...many(66, k => [k, 2]).flat()])
}
shapes.forEach(({ form, update, vector }, k) => {
  if (k % 4 === 0) fitted(form, damaged(update), vector, k >> 2)
  if (k % 8 === 1 && vector.length > 1) c.sort(form, update, damaged(vector), k % 3 === 0 ? { orderRows: random(3) } : {})
})

fs.writeFileSync(path.join(folder, 'sorts.stdin'), c.stream())
fs.writeFileSync(path.join(folder, 'sorts.stdout'), c.output())
console.log(`${c.told()}\nsorts of updates by Yjs: ${byYjs.length}: ${kinds.join('; ')}; form 1 + form 2 with ${has.join(', ')}`)
