// Writes the sorts by held ids (W-206) of the case program and what it is expected to print: held-sorts.cjs FOLDER writes FOLDER/held-sorts.stdin and
// FOLDER/held-sorts.stdout. The same every time. `run` beside it installs what this needs.
'use strict'
const fs = require('fs')
const path = require('path')
const c = require('./sort-cases.cjs')
const s = require('./spelling.cjs')
const { Y } = require('./yjs.cjs')
const { whole } = require('./update-cases.cjs')
const { hex } = require('./stream.cjs')
const { gc, skip, section, replaced, ...shape } = require('./shapes.cjs')
const { begin, many } = require('./random.cjs')

const folder = process.argv[2]
const loose = begin(0x1b873593)
const { random, pick } = loose
const documents = require('./documents.cjs').begin(loose)
const { some, someClient, damaged, shuffled, tangled } = shape.begin(loose)
const forms = [1, 2]
const least = (what, n, wanted) => {
  if (n < wanted) throw new Error(`just ${n} ${what}`)
}

require('./held-sorts-by-hand.cjs').all()

const asked = []
// Rows in plenty, or just enough; now and then one too few of one of them.
const fitted = (kind, form, update, held) => {
  const r = c.heldAnswer(form, update, held)
  const k = asked.length
  asked.push({ kind, form, r })
  if (r.number !== 0) return c.held(form, update, held, k % 2 === 0 ? {} : { heldRows: random(4), orderRows: random(4) })
  const lent = { blockRows: r.read.blocks.length, rangeRows: r.read.rangesRead, heldRows: r.given.rangesRead, orderRows: r.order.length }
  c.held(form, update, held, k % 3 === 0 ? {} : lent)
  const fewer = pick(Object.keys(lent))
  if (k % 4 === 0 && lent[fewer] > 0) c.held(form, update, held, { ...lent, [fewer]: lent[fewer] - 1 })
}

// ---- updates by Yjs, against the ids that other updates of the same documents cover: with holes where something is missing, cut anywhere, and spelt as a
// careless peer would: in any order, in pieces, some of them twice

const merged = (form, sent) => [...(form === 1 ? Y.mergeUpdates(sent.map(x => x.one)) : Y.mergeUpdatesV2(sent.map(x => x.two)))]
const readable = sent => sent.filter(x => whole(1, [...x.one]).number === 0)
const covered = sent => sent.length === 0 ? [] : whole(1, merged(1, sent)).blocks.filter(b => b.kind !== 'skip' && b.length > 0n)
const inPieces = ({ clock, length }) => {
  const [from, size] = [Number(clock), Number(length)]
  const cut = random(size + 1)
  return pick([[[from, size]], [[from, cut], [from + cut, size - cut]], [[from + cut, size - cut], [from, size]]])
}
const idsOf = (blocks, careless) => {
  const clients = [...new Set(blocks.map(b => b.client))]
  const of = client => blocks.filter(b => b.client === client)
  if (!careless) return c.heldBytes(clients.map(client => [client, of(client).map(b => [b.clock, b.length])]))
  const ranges = clients.flatMap(client => {
    const all = shuffled(of(client).flatMap(inPieces))
    const at = random(all.length + 1)
    return random(3) === 0 ? [[client, all.slice(0, at)], [client, all.slice(at)]] : [[client, all]]
  })
  return [...c.heldBytes(shuffled(ranges), random(3) === 0 ? loose : null), ...(random(4) === 0 ? [random(256)] : [])]
}
const seen = new Set()
const real = (kind, form, update, held) => {
  const key = [form, hex(update), hex(held)].join()
  if (update.length > 200 || seen.has(key) || whole(form, update).number !== 0) return
  seen.add(key)
  fitted(kind, form, update, held)
}
const groups = [[5, 9], [1, 2, 3], [300, 70000, 9, 4], [0, 127, 128], [9007199254740991, 0, 1099511627776]]
const talks = many(30, k => documents.conversation({
  clients: groups[k % groups.length],
  gc: k % 5 !== 4,
  turns: 8 + random(6),
  who: () => random(groups[k % groups.length].length),
  hears: () => random(4) > 0,
  say: doc => documents.edit(doc, k % 2 === 1)
}))
const someOf = (all, n) => all.filter(() => random(4) < n)
talks.forEach(sent => {
  const letters = readable(sent)
  for (let j = 0; j < 12; j++) {
    const form = pick(forms)
    const known = someOf(letters, pick([1, 2, 3]))
    const rest = letters.filter(x => !known.includes(x))
    const sends = pick([rest, someOf(rest, 3), someOf(letters, 2), letters])
    if (sends.length > 0) real(j % 2 === 0 ? 'as they are covered' : 'spelt carelessly', form, merged(form, sends), idsOf(covered(known), j % 2 === 1))
  }
})
least('updates by Yjs', asked.length, 200)

// ---- ids among few clients at low clocks, in all shapes, against held ids in all shapes

const pools = [[5, 7, 9], [0, 127, 128, 70000], [2n ** 53n - 1n, 2n ** 32n, 9, 5, 0]]
const someRanges = () => many(random(5), () => [random(10), pick([0, 1, 1, 2, 3])])
const someHeld = pool => c.heldBytes(shuffled([...pool, ...pool, 6]).filter(() => random(3) === 0).map(client => [client, someRanges()]), random(4) === 0 ? loose : null)
// Everything that could be asked for, and nothing.
const everything = pool => c.heldBytes(pool.map(client => [client, [[0, 20]]]))
const shapes = many(420, k => {
  const form = forms[k % 2]
  const pool = pools[(k >> 1) % 3]
  const deletes = random(6) === 0 ? [[5, [[random(3), 2]]]] : []
  const held = k % 9 === 0 ? [0] : k % 9 === 1 ? everything(pool) : someHeld(pool)
  return { form, update: s.update(form, { sections: tangled(pool), deletes }, k % 8 < 6 ? null : loose), held }
})
// Clients, clocks and lengths of all sizes.
const far = many(50, k => {
  const form = forms[k % 2]
  const of = some(form)
  const named = [...of.sections.flatMap(x => x.blocks.filter(b => b.left !== undefined).map(b => b.left)), [someClient(), 0]].filter(() => random(2) === 0)
  const held = c.heldBytes(named.map(([client, clock]) => [client, [[pick([clock, 0n, BigInt(clock) + 1n]), pick([1, 2 ** 20, 2 ** 30])]]]))
  return { form, update: s.update(form, of, k % 4 < 2 ? null : loose), held }
})
;[...shapes, ...far].forEach(({ form, update, held }) => fitted('in all shapes', form, update, held))

// ---- what they have in them: how many in each form

const others = b => [b.left, b.right, b.parent].filter(id => id !== null && id.client !== b.client)
const taken = r => r.read.blocks.filter(b => !r.rest.includes(b))
const inBlock = (b, id) => b.client === id.client && b.clock <= id.clock && id.clock < b.clock + b.length
const asksFor = (r, test) => taken(r).some(b => others(b).some(id => test(id)))
const waitsFor = (r, test) => r.pending.some(([, client, clock]) => test({ client, clock }))
const reach = (r, client) => [...r.given.ranges, ...taken(r)].filter(x => x.client === client && x.kind !== 'skip').reduce((most, x) => x.clock + x.length > most ? x.clock + x.length : most, 0n)
const given = (r, id) => r.given.ranges.some(x => inBlock(x, id))
const features = {
  'all taken': [80, r => r.order.length > 0 && r.rest.length === 0],
  'all pending': [20, r => r.order.length === 0 && r.rest.length > 0],
  'some of both': [50, r => r.order.length > 0 && r.rest.length > 0],
  'an id that is given': [80, r => asksFor(r, id => given(r, id))],
  'an id in a taken block': [40, r => asksFor(r, id => !given(r, id))],
  'an id in a hole': [50, r => waitsFor(r, id => id.clock < reach(r, id.client))],
  'an id in a taken Skip': [8, r => waitsFor(r, id => taken(r).some(b => b.kind === 'skip' && inBlock(b, id)))],
  'an id of a block that is left': [10, r => waitsFor(r, id => r.rest.some(b => inBlock(b, id)))],
  'waiting by the right id': [10, r => r.fronts.some((b, k) => b.right !== null && b.right.client === r.pending[k][1] && b.right.clock === r.pending[k][2])],
  'waiting by the parent id': [8, r => r.fronts.some((b, k) => b.parent !== null && b.parent.client === r.pending[k][1] && b.parent.clock === r.pending[k][2])],
  'taken above a gap': [50, r => taken(r).some(b => b.kind !== 'skip' && b.clock > 0n && ![...r.given.ranges, ...taken(r)].some(x => x.kind !== 'skip' && inBlock(x, { client: b.client, clock: b.clock - 1n })))],
  'ranges that joined': [50, r => r.given.rangesRead > r.given.ranges.length],
  'nothing held': [20, r => r.given.ranges.length === 0],
  'three sections': [40, r => r.taken.length > 2]
}
const answered = asked.filter(x => x.r.number === 0)
const has = Object.entries(features).map(([what, [wanted, test]]) => {
  const n = forms.map(form => answered.filter(x => x.form === form && test(x.r)).length)
  least(`sorts by held ids with ${what}`, Math.min(...n), wanted)
  return `${what} ${n.join('+')}`
})
const kinds = [...new Set(asked.map(x => x.kind))].map(kind => `${kind} ${asked.filter(x => x.kind === kind).length}`)

// ---- rows about what is needed: of blocks, ranges, held ranges and steps

const waiting = (client, clock) => ({ info: 129, left: [client, clock], length: 1 })
const three = form => s.update(form, {
  sections: [section(5, 0, gc(1), waiting(9, 3), waiting(7, 1)), section(9, 1, skip(1), gc(0), gc(2))],
  deletes: [[5, [[0, 1], [1, 1]]], [9, [[4, 1]]]]
})
const four = c.heldBytes([[7, [[1, 1], [0, 1]]], [300, [[70, 5]]], [5, [[9, 0], [2, 2]]]])
for (const form of forms) {
  for (const held of [[0], four]) for (let n = 0; n <= 7; n++) c.held(form, three(form), held, { blockRows: 6, rangeRows: 3, heldRows: 4, orderRows: n })
  for (let b = 4; b <= 7; b++) for (let d = 1; d <= 4; d++) for (let h = 2; h <= 5; h++) c.held(form, three(form), four, { blockRows: b, rangeRows: d, heldRows: h, orderRows: 5 + (b + d) % 2 })
}

// ---- damage: every prefix of an update and of held ids, bytes changed, short rows beside it

for (const form of forms) {
  const update = three(form)
  for (let n = 0; n < update.length; n++) c.held(form, update.slice(0, n), pick([four, [1], [2, 5, 0, 5]]), pick([{}, { orderRows: 0 }, { blockRows: 1 }, { heldRows: 0 }]))
  for (let n = 0; n < four.length; n++) c.held(form, update, four.slice(0, n), n % 3 === 0 ? { orderRows: 2 } : n % 3 === 1 ? { heldRows: 2 } : {})
  four.forEach((b, k) => {
    for (const x of new Set([0, b ^ 1, b ^ 64, b ^ 128])) if (x !== b) c.held(form, update, replaced(four, k, x))
  })
  // Limits: of a client, a clock, a length and an end.
  for (const x of [2n ** 31n - 1n, 2n ** 31n, 2n ** 53n - 1n, 2n ** 53n, 2n ** 63n - 1n]) {
    for (const ids of [[[x, [[1, 1]]]], [[5, [[x, 0]]]], [[5, [[x, 1]]]], [[5, [[x - 1n, 1]]]], [[5, [[0, x]]]], [[5, [[1, x]]]]]) c.held(form, update, c.heldBytes(ids))
  }
  for (const n of [63, 64, 65, 128]) c.held(form, update, [...s.u(n), ...many(66, k => [k, 1, 2, 1]).flat()])
}
shapes.forEach(({ form, update, held }, k) => {
  if (k % 4 === 0) c.held(form, damaged(update), held)
  if (k % 4 === 1 && held.length > 1) c.held(form, update, damaged(held), k % 3 === 0 ? { orderRows: random(3), heldRows: random(4) } : {})
})

fs.writeFileSync(path.join(folder, 'held-sorts.stdin'), c.stream())
fs.writeFileSync(path.join(folder, 'held-sorts.stdout'), c.output())
console.log(`${c.told()}\nsorts by held ids: ${kinds.join('; ')}; form 1 + form 2 with ${has.join(', ')}`)
