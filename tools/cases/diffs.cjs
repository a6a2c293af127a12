// Writes the diffs of the case program and what it is expected to print: diffs.cjs FOLDER writes FOLDER/diffs.stdin and FOLDER/diffs.stdout.
// The same every time. `run` beside it installs what this needs.
'use strict'
const fs = require('fs')
const path = require('path')
const c = require('./diff-cases.cjs')
const s = require('./spelling.cjs')
const { whole } = require('./update-cases.cjs')
const { gc, skip, gone, section, replaced, ...shape } = require('./shapes.cjs')
const { begin, many } = require('./random.cjs')

const folder = process.argv[2]
const loose = begin(0x2545f491)
const { random, pick } = loose
const documents = require('./documents.cjs').begin(loose)
const { some, damaged, shuffled } = shape.begin(loose)
const { vectorOf, between, someVector } = require('./vectors.cjs').begin(loose)
const fitted = (...of) => c.fitted(random, ...of)
const forms = [1, 2]
const pairs = forms.flatMap(form => forms.map(written => [form, written]))
const least = (what, n, wanted) => {
  if (n < wanted) throw new Error(`just ${n} ${what}`)
}

require('./diffs-by-hand.cjs').all()

// ---- updates by Yjs, against vectors of all kinds and against its own

const { made, vectors } = documents.histories(56)
const readable = made.filter(({ form, update }) => update.length <= 400 && whole(form, update).number === 0)
const small = readable.filter(({ update }, k) => update.length <= 240 && k % 4 < 2)
const byYjs = []
const real = (form, written, update, vector) => {
  fitted(form, written, update, vector, byYjs.length)
  byYjs.push({ form, written, update, vector })
}
small.forEach(({ form, update }, k) => {
  const of = whole(form, update)
  const against = k % 8 === 0 ? [pick(vectors), [0]] : k % 8 === 1 ? [pick(vectors), someVector(of)] : [someVector(of), someVector(of)]
  against.forEach((vector, j) => real(form, forms[(j + (k >> 1)) % 2], update, vector))
})
// Deleted and GCs of several units are rare: some of each are cut for themselves, in all pairs of forms.
for (const kind of ['deleted', 'gc']) {
  for (const form of forms) {
    const found = readable.filter(m => m.form === form).flatMap(({ update }) => whole(form, update).blocks.filter(b => b.kind === kind && b.length > 1n).map(b => [update, b]))
    shuffled(found).slice(0, 12).forEach(([update, b]) => {
      for (const written of forms) real(form, written, update, vectorOf([[b.client, b.clock + between(1n, b.length)]]))
    })
  }
}
least('diffs of updates by Yjs', byYjs.length, 1500)
// What they have in them: how many for each pair of forms.
const answered = byYjs.map(d => ({ ...d, r: c.answer(d.form, d.written, d.update, d.vector) }))
const cut = (r, test) => r.number === 0 && r.sections.some(x => r.read.blocks.some(b => b.client === x.client && b.clock < x.clock && b.clock + b.length > x.clock && test(b)))
const left = r => new Set(r.sections.map(x => x.client)).size
const features = {
  'a cut text': [20, r => cut(r, b => b.kind === 'text')],
  'a cut text with a right id': [5, r => cut(r, b => b.kind === 'text' && b.right !== null)],
  'a cut deleted': [8, r => cut(r, b => b.kind === 'deleted')],
  'a cut GC': [5, r => cut(r, b => b.kind === 'gc')],
  'a Skip inside': [4, r => r.number === 0 && r.sections.some(x => x.blocks.some(b => b.info === 10))],
  'a key': [20, r => r.number === 0 && r.sections.some(x => x.blocks.some(b => b.info & 32))],
  'several sections': [20, r => r.number === 0 && left(r) > 1],
  'a client with nothing left': [20, r => r.number === 0 && left(r) < new Set(r.read.blocks.map(b => b.client)).size],
  'all left': [20, r => r.number === 0 && r.sections.flatMap(x => x.blocks).length === r.read.blocks.length],
  nothing: [20, r => r.number === 0 && left(r) === 0],
  ranges: [20, r => r.number === 0 && r.read.ranges.length > 0],
  'refused 9': [5, r => r.number === 9]
}
const has = Object.entries(features).map(([what, [wanted, test]]) => {
  const n = pairs.map(([form, written]) => answered.filter(d => d.form === form && d.written === written && test(d.r)).length)
  least(`diffs of updates by Yjs with ${what}`, Math.min(...n), wanted)
  return `${what} ${n.join('+')}`
})

// ---- shapes and spellings that Yjs does not write

const shapes = many(360, k => {
  const form = forms[k % 2]
  return { form, update: s.update(form, some(form), k % 4 < 2 ? null : loose) }
})
// Some are diffed again, against the same vector.
const again = (written, vector, r, k) => {
  if (k % 9 === 0 && r.number === 0) c.diff(written, forms[(k >> 1) % 2], r.bytes, vector)
}
answered.forEach(({ written, vector, r }, k) => again(written, vector, r, k))
shapes.forEach(({ form, update }, k) => {
  const [written, vector] = [forms[(k >> 1) % 2], someVector(whole(form, update))]
  fitted(form, written, update, vector, k)
  again(written, vector, c.answer(form, written, update, vector), k)
})

// ---- every clock that a vector can say, from nothing to beyond the end

const texts = { info: 0x24, name: 't', key: 'k', text: 'é😀z' }
const walks = [
  { clock: 0, to: 17, sections: [section(5, 0, gc(2), skip(2), gone(3), { ...texts }, { info: 131, left: [5, 6], binary: [1, 2] }, gc(0), skip(1), gone(0), { info: 196, left: [5, 9], right: [9, 0], text: '😀' })] },
  { clock: 2, to: 12, sections: [section(3, 0, gc(1)), section(5, 3, skip(1), skip(0), gc(0), gone(2), skip(1), gc(2)), section(9, 1, gone(2))] },
  { clock: 0, to: 7, sections: [section(5, 0, { info: 4, parent: [9, 3], text: 'a𝄞b€' }), section(9, 0, { info: 0x61, right: [5, 1], length: 2 }, { info: 1, parent: [5, 4], length: 1 })] }
]
for (const [form, written] of pairs) {
  for (const { clock, to, sections } of walks) {
    const update = s.update(form, { sections, deletes: [[5, [[0, 2], [4, 1]]], [9, [[1, 1]]]] })
    for (let k = clock; k <= to; k++) c.diff(form, written, update, vectorOf([[5, k]]))
    c.diff(form, written, update, vectorOf([[9, 2], [5, 5], [3, 1]]))
  }
}

// ---- differences about the most that form 2 has, of left, parent and right clocks; sections in both orders

const P = 2 ** 30
const clocks = [[P - 1], [P], [P - 1, 2 * P - 2], [P - 1, 2 * P - 1], [P - 1, 2 * P - 2, P - 2], [P - 1, 2 * P - 2, P - 3], [P - 1, 0], [5, P + 4], [5, P + 5], [0, P - 1, 2 * P - 1]]
const ids = [x => ({ info: 129, left: [9, x], length: 2 }), x => ({ info: 65, right: [9, x], length: 2 }), x => ({ info: 1, parent: [9, x], length: 2 })]
clocks.forEach((values, k) => ids.forEach((id, j) => {
  const rising = [section(5, 0, ...values.map(id))]
  const apart = values.map((x, n) => section(5 + n, 0, id(x)))
  for (const sections of [rising, apart]) {
    c.diff(1, 2, s.update(1, { sections }), [0])
    c.diff(1, forms[(j + k) % 2], s.update(1, { sections }), vectorOf([[5, 1 + (j + k) % 3]]))
    // Form 2 reads its own differences: the first block known, so that the second is the first one written.
    const update = s.update(2, { sections })
    if (whole(2, update).number === 0) for (const clock of [0, 1, 2]) c.diff(2, 2, update, vectorOf([[5, clock]]))
  }
}))
// Left and parent clocks share a column, right clocks have their own.
for (const written of forms) {
  const mixed = (a, b) => s.update(1, { sections: [section(5, 0, ids[a](P - 1), ids[b](2 * P - 2))] })
  for (const a of [0, 1, 2]) for (const b of [0, 1, 2]) c.diff(1, written, mixed(a, b), [0])
}

// ---- columns: long runs, texts of all lengths, numbers of all sizes

for (const [form, written] of pairs) {
  const all = (sections, deletes = [], vector = [0]) => c.diff(form, written, s.update(form, { sections, deletes }), vector)
  const several = (n, block) => all([section(5, 0, ...many(n, block))], [], vectorOf([[5, 1]]))
  several(70, () => gc(1))
  several(140, k => gone(k === 0 ? 3 : 1))
  several(40, k => ({ info: 132, left: [5, k], text: 'ab' }))
  several(12, k => ({ info: k % 3 === 0 ? 36 : 132, left: [5, k], name: 't', key: 'key', text: pick(['a', '', '😀', 'é€']) }))
  several(9, k => k % 2 === 0 ? gc(2) : skip(3))
  several(6, k => ({ info: 131, left: [9, 6 - k], binary: many(k * 50, () => random(256)) }))
  for (const x of [0n, 63n, 64n, 127n, 128n, 8191n, 8192n, 2n ** 31n - 3n]) {
    all([section(x, x, gc(1)), section(x + 1n, 0, { info: 193, left: [x, x % 2n ** 30n], right: [9, 0], length: x + 2n })], [[x, [[x, 2]]]], vectorOf([[x + 1n, 1]]))
  }
  all([section(2n ** 53n - 1n, 0, gc(2)), section(2n ** 53n - 2n, 0, gc(2)), section(2n ** 32n, 0, gc(2))], [[2n ** 53n - 1n, [[0, 1]]]], vectorOf([[2n ** 53n - 2n, 1]]))
  all([section(5, 2 ** 31 - 2, gc(1))], [], vectorOf([[5, 2 ** 31 - 2]]))
  all([section(5, 2 ** 31 - 2, gc(1))], [], vectorOf([[5, 2 ** 31 - 1]]))
  all([section(5, 0, gc(2 ** 31 - 1))], [[5, [[0, 2 ** 31 - 1]]]], vectorOf([[5, 2 ** 31 - 2]]))
  all([section(5, 0, { info: 4, name: 'wide', text: 'aé€😀'.repeat(120) })], [], vectorOf([[5, 300]]))
  all([section(5, 0, { info: 4, name: 'wide', text: 'aé€😀'.repeat(120) })], [], vectorOf([[5, 304]]))
  all(many(64, k => section((k * 29) % 64, 0, gc(2))), many(64, k => [k, [[0, 1]]]), vectorOf(many(64, k => [k, k % 3])))
  all([], [[5, many(40, k => [3 * k, 1 + k % 2])]])
}
// Delete sets that overlap, touch, repeat and fall.
for (let k = 0; k < 80; k++) {
  const deletes = many(1 + random(5), () => [BigInt(random(4)), many(random(7), () => [random(30), random(6)])])
  c.diff(1, forms[k % 2], s.update(1, { sections: k % 4 < 2 ? [] : [section(2, 0, gc(4))], deletes }), k % 3 === 0 ? [0] : vectorOf([[2, k % 6]]))
}

// ---- every room, and rows about what is needed

const both = form => s.update(form, { sections: [section(5, 0, gc(1), { ...texts }), section(9, 4, gone(0), gone(3))], deletes: [[5, [[0, 1], [1, 1]]], [9, [[4, 1]]]] })
for (const [form, written] of pairs) {
  const vector = vectorOf([[5, 2]])
  const size = c.answer(form, written, both(form), vector).bytes.length
  for (let room = 0; room <= size + 2; room++) c.diff(form, written, both(form), vector, { blockRows: 3, rangeRows: 3, room })
  for (let b = 0; b <= 4; b++) for (let d = 1; d <= 4; d++) c.diff(form, written, both(form), vector, { blockRows: b, rangeRows: d, room: size })
}

// ---- damage: every prefix of an update and of a vector, bytes changed, short rows beside it

const known = vectorOf([[9, 5], [300, 70], [5, 2]])
for (const form of forms) {
  const update = both(form)
  for (let n = 0; n < update.length; n++) c.diff(form, forms[n % 2], update.slice(0, n), pick([known, [1], [2, 5, 0, 5]]), pick([{}, { room: 0 }, { blockRows: 1 }]))
  for (let n = 0; n < known.length; n++) c.diff(form, forms[n % 2], update, known.slice(0, n), n % 5 === 0 ? { blockRows: 2 } : {})
  known.forEach((b, k) => {
    for (const x of new Set([0, 1, b ^ 1, b ^ 64, b ^ 128, 255])) if (x !== b) c.diff(form, forms[k % 2], update, replaced(known, k, x))
  })
  // A vector's limits, and its client again.
  for (const x of [2n ** 31n - 1n, 2n ** 31n, 2n ** 53n - 1n, 2n ** 53n]) {
    c.diff(form, 1, update, vectorOf([[5, x]]))
    c.diff(form, 2, update, vectorOf([[x, 1]]))
    c.diff(form, 1, update, vectorOf([[x, 1], [x, 2]]))
  }
  for (const n of [64, 65, 128]) c.diff(form, 2, update, [...s.u(n), ...many(66, k => [k, 2]).flat()])
}
;[...small, ...shapes].forEach(({ form, update }, k) => {
  if (update.length > 160 || k % 3 > 0) return
  const vector = someVector(whole(form, update))
  const written = forms[random(2)]
  if (k % 2 === 0) fitted(form, written, damaged(update), vector, k)
  else c.diff(form, written, update, damaged(vector), k % 5 === 0 ? { room: random(30) } : {})
})

least('cases refused 9', c.refused.get(9), 60)
least('cases refused 13', c.refused.get(13), 60)
fs.writeFileSync(path.join(folder, 'diffs.stdin'), c.stream())
fs.writeFileSync(path.join(folder, 'diffs.stdout'), c.output())
console.log(`${c.told()}\ndiffs of updates by Yjs: ${byYjs.length}; by pairs of forms 1 to 1, 1 to 2, 2 to 1, 2 to 2, with ${has.join(', ')}`)
