// A case of operation 17 with the line that is expected: from the model. Beside it a case of operation 25, the same by rule 13, which is compared with what
// Yjs takes and leaves pending; and of every few a case of operation 26, the same by sweeps, or of operation 22, the same by held ids;
// and of every few of these one of operation 27, by sweeps.
'use strict'
const model = require('./sort-model.cjs')
const heldModel = require('./held-model.cjs')
const s = require('./spelling.cjs')
const { readVector } = require('./update-model.cjs')
const { whole, range, tables } = require('./update-cases.cjs')
const yjs = require('./yjs.cjs')
const yjsSorts = require('./yjs-sorts.cjs')
const { limited, sized, LONG, SHORT, hex, first, begin } = require('./stream.cjs')
const { pick } = require('./random.cjs').begin(0x6c078965)

const FEW = 3
const { add, stream, output, counts, refused, placed, told } = begin()
const known = form => form === 1 || form === 2

const taken = r => r.taken.map(([client, n]) => `${client}:${n}`)
const pending = r => r.pending.map(([client, missing, clock]) => `${client}>${missing}:${clock}`)
const reports = r => [taken(r), r.reaches.map(([client, clock]) => `${client}:${clock}`), pending(r)]
const line = r => [first(r), ...(r.number === 0 ? [...[r.order, ...reports(r)].flatMap(words => [...words, ';']), ...tables(r.read)] : []), 'zero']

// Sorting has one outcome: by other orders of steps, the lowest client first and any one, the same is taken and reported.
const alike = (rule, update, vector, r) => {
  for (const choose of [ready => ready[ready.length - 1], pick, pick]) {
    const other = model.sorted(r.read.blocks, r.entries, { rule, choose })
    if (reports(other).join() !== reports(r).join()) throw new Error(`two outcomes: ${hex(update)} against ${hex(vector)}`)
  }
}

// The model's answer with rows without end, compared with Yjs, once for each sort.
const answers = new Map()
const both = (form, update, vector) => {
  const key = [form, hex(update), hex(vector)].join()
  if (!answers.has(key)) {
    if (known(form)) whole(form, update)
    yjs.compareVector(vector, readVector(vector))
    const [r, r13] = [28, 13].map(rule => model.sort(form, update, vector, { rule }))
    if (r.number === 0) {
      alike(28, update, vector, r)
      alike(13, update, vector, r13)
      if (!r.across && line(r).join() !== line(r13).join()) throw new Error(`rules 13 and 28 part without a gap: ${hex(update)} against ${hex(vector)}`)
      yjsSorts.compare(form, update, vector, r13, r.across)
    }
    answers.set(key, { r, r13 })
  }
  return answers.get(key)
}
const answer = (form, update, vector) => both(form, update, vector).r
const answer13 = (form, update, vector) => both(form, update, vector).r13

const asked = (form, update, vector, { blockRows = 512, rangeRows = 1024, orderRows = 512 } = {}) => [
  limited('form', form, 255), limited('block rows', blockRows, 512), limited('range rows', rangeRows, 1024), limited('order rows', orderRows, 512),
  sized(update, LONG), sized(vector, SHORT)
]
const rows = ({ blockRows = 512, rangeRows = 1024, orderRows = 512 } = {}) => ({ blockRows, rangeRows, orderRows })

// Operation 25.
const ruled = (rule, form, update, vector, lent) =>
  add(25, [limited('rule', rule, 255), ...asked(form, update, vector, lent)], line(model.sort(form, update, vector, { rule, ...rows(lent) })))

// Operation 26. Only the order differs from what operation 25 has.
const slowly = (rule, form, update, vector, lent) => {
  const [quick, slow] = [false, true].map(slowly => model.sort(form, update, vector, { rule, slowly, ...rows(lent) }))
  const told = r => r.number === 0 ? [r.order.length, ...reports(r), ...tables(r.read)] : [first(r)]
  if (told(quick).join() !== told(slow).join()) throw new Error(`the sorters part: ${hex(update)} against ${hex(vector)}`)
  return add(26, [limited('rule', rule, 255), ...asked(form, update, vector, lent)], line(slow))
}

// ---- by held ids

// Held ids are laid out as a form 1 delete set: [client, [[clock, length], ..]] for each client.
const heldBytes = (clients, loose = null) => [
  ...s.u(clients.length, loose),
  ...clients.flatMap(([client, ranges]) => [...s.u(client, loose), ...s.u(ranges.length, loose), ...ranges.flat().flatMap(n => s.u(n, loose))])
]
const heldLine = r => [
  first(r),
  ...(r.number === 0 ? [...[r.order, taken(r), pending(r), ['held', r.given.ranges.length, ...r.given.ranges.map(range)]].flatMap(words => [...words, ';']), ...tables(r.read)] : []),
  'zero'
]

// The model's answer with rows without end. It has one outcome: by other orders of steps, the lowest client first and any one, and by sweeps, the same is taken
// and reported.
const heldAnswers = new Map()
const heldAnswer = (form, update, held) => {
  const key = [form, hex(update), hex(held)].join()
  if (!heldAnswers.has(key)) {
    if (known(form)) whole(form, update)
    const r = heldModel.sort(form, update, held)
    if (r.number === 0) {
      const others = [ready => ready[ready.length - 1], pick, pick].map(choose => heldModel.sorted(r.read.blocks, r.given.ranges, choose))
      for (const other of [...others, heldModel.sort(form, update, held, { slowly: true })]) {
        if ([taken(other), pending(other)].join() !== [taken(r), pending(r)].join()) throw new Error(`two outcomes: ${hex(update)} against ${hex(held)}`)
      }
    }
    heldAnswers.set(key, r)
  }
  return heldAnswers.get(key)
}

// Operations 22 and 27. Of every few of 22 one of 27 is asked, too; only the order differs.
const heldBy = (operation, form, update, bytes, { blockRows = 512, rangeRows = 1024, heldRows = 1024, orderRows = 512 } = {}) => {
  heldAnswer(form, update, bytes)
  const [quick, slow] = [false, true].map(slowly => heldModel.sort(form, update, bytes, { slowly, blockRows, rangeRows, heldRows, orderRows }))
  const told = r => r.number === 0 ? [r.order.length, taken(r), pending(r)] : [first(r)]
  if (told(quick).join() !== told(slow).join()) throw new Error(`the sorters by held ids part: ${hex(update)} against ${hex(bytes)}`)
  return add(operation, [
    limited('form', form, 255), limited('block rows', blockRows, 512), limited('range rows', rangeRows, 1024), limited('held rows', heldRows, 1024),
    limited('order rows', orderRows, 512), sized(update, LONG), sized(bytes, LONG)
  ], heldLine(operation === 27 ? slow : quick))
}
let heldAsks = 0
const held = (form, update, bytes, lent) => {
  if (heldAsks++ % FEW === 0) heldSlowly(form, update, bytes, lent)
  return heldBy(22, form, update, bytes, lent)
}
const heldSlowly = (form, update, bytes, lent) => heldBy(27, form, update, bytes, lent)

// By the ids that a vector has, each client's below its clock. Where nothing is taken across a gap, as much is taken, in the same order, and the same clients
// are waited for. Where the vector is none, its own bytes are the held ids, whatever they say.
const heldAs = (form, update, vector, lent) => {
  const r = answer(form, update, vector)
  const entries = readVector(vector).entries
  const bytes = entries === undefined ? vector : heldBytes(entries.map(e => [e.client, [[0, e.clock]]]))
  const h = heldAnswer(form, update, bytes)
  const told = x => [x.order, taken(x), x.pending.map(([client, missing]) => [client, missing])].join(';')
  if (r.number === 0 && !r.across && told(r) !== told(h)) throw new Error(`reaches and held ids part without a gap: ${hex(update)} against ${hex(vector)}`)
  return held(form, update, bytes, lent)
}

// Every few sorts are asked slowly, too, by one rule and the other, or by held ids.
let asks = 0
const sort = (form, update, vector, lent) => {
  answer(form, update, vector)
  if (asks++ % FEW === 0) slowly(asks % 2 === 0 ? 28 : 13, form, update, vector, lent)
  if (asks % FEW === 0) heldAs(form, update, vector, lent)
  ruled(13, form, update, vector, lent)
  return add(17, asked(form, update, vector, lent), line(model.sort(form, update, vector, rows(lent))))
}

// Rows just enough, or plenty; now and then one too few of one of them.
const fitted = (random, form, update, vector, k) => {
  const r = answer(form, update, vector)
  if (r.number !== 0) return sort(form, update, vector, k % 2 === 0 ? {} : { blockRows: whole(form, update).blocks?.length, orderRows: random(4) })
  const lent = { blockRows: r.read.blocks.length, rangeRows: r.read.rangesRead, orderRows: r.order.length }
  sort(form, update, vector, k % 3 === 0 ? {} : lent)
  if (k % 6 === 0 && lent.orderRows > 0) sort(form, update, vector, { ...lent, orderRows: lent.orderRows - 1 })
  // By rule 13 the rows are just enough, or one too few; by rule 28 operation 25 is operation 17.
  const steps = answer13(form, update, vector).order.length
  if (k % 4 === 1) ruled(13, form, update, vector, { ...lent, orderRows: steps })
  if (k % 6 === 2 && steps > 0) ruled(13, form, update, vector, { ...lent, orderRows: steps - 1 })
  if (k % 5 === 0) ruled(28, form, update, vector, lent)
  if (k % 16 === 1 && lent.blockRows > 0) sort(form, update, vector, { ...lent, blockRows: lent.blockRows - 1 })
  if (k % 16 === 3 && lent.rangeRows > 0) sort(form, update, vector, { ...lent, rangeRows: lent.rangeRows - 1 })
}

module.exports = {
  sort, ruled, slowly, held, heldSlowly, heldBytes, heldAnswer, fitted, answer, answer13, stream, output, counts, refused,
  told: () => [
    `cases of an operation: ${told(counts)}`,
    `the number of a line: ${told(refused)}; at another place than 0: ${told(placed)}`,
    `${answers.size} sorts, with Yjs ${yjs.version}: ${yjsSorts.told()}; ${heldAnswers.size} by held ids`
  ].join('\n')
}
