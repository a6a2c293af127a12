// Writes the cases of formats, types and any-lists (W-202) and what is expected of them: marks.cjs FOLDER writes FOLDER/marks.stdin and FOLDER/marks.stdout.
// The same every time. `run` beside it installs what this needs.
'use strict'
const fs = require('fs')
const path = require('path')
const updates = require('./update-cases.cjs')
const diffs = require('./diff-cases.cjs')
const sorts = require('./sort-cases.cjs')
const yjsSorts = require('./yjs-sorts.cjs')
const byHand = require('./marks-by-hand.cjs')
const { readUpdate } = require('./update-model.cjs')
const { Y } = require('./yjs.cjs')
const s = require('./spelling.cjs')
const { hex, bytes } = require('./stream.cjs')
const { gc, section, replaced, ...shape } = require('./shapes.cjs')
const { begin, many } = require('./random.cjs')

const folder = process.argv[2]
const loose = begin(0x7f4a7c15)
const { random, pick } = loose
const documents = require('./documents.cjs').begin(loose)
const rich = require('./rich-documents.cjs').begin(loose)
const { vectorOf, between, someVector } = require('./vectors.cjs').begin(loose)
const { some, someAny, damaged, shuffled } = shape.begin(loose, [1, 3, 4, 6, 6, 7, 7, 8, 8])
const forms = [1, 2]
const pairs = forms.flatMap(form => forms.map(written => [form, written]))
const least = (what, n, wanted) => {
  if (n < wanted) throw new Error(`just ${n} ${what}`)
}
const { whole } = updates
const wide = ['any', 'any', 'text']

byHand.all()

// ---- documents that Yjs edited, read in both forms

const { made, vectors } = documents.histories(70, rich.edit)
const readable = made.filter(({ form, update }) => whole(form, update).number === 0)
least('updates by Yjs read', readable.length, 2000)
readable.forEach(({ form, update }, k) => {
  const r = whole(form, update)
  const [b, d] = [r.blocks.length, r.rangesRead]
  if (update.length <= 400 || k % 4 === 0) updates.read(form, update, ...(k % 3 === 0 ? [512, 1024] : [b, d]))
  if (k % 11 === 0 && b > 0) updates.read(form, update, b - 1, d)
  if (k % 12 === 0) for (const n of new Set([random(b + 1), Math.max(b - 1, 0), b])) updates.content(form, n, update)
  if (k % 12 === 1) updates.list([form, ...update])
  if (k % 12 === 2) updates.strict(form, update)
  if (k % 24 === 3) updates.strict(form, [...update, random(256)])
})
const kind = (...kinds) => r => r.blocks.some(b => kinds.includes(b.kind))
const type = n => r => r.blocks.some(b => b.type === BigInt(n))
const wider = r => r.blocks.some(b => b.kind === 'any' && b.length > 1n)
const marked = r => r.blocks.filter(b => b.mark !== null)
const features = {
  ...Object.fromEntries(['format', 'type', 'any', 'text', 'binary', 'deleted', 'gc', 'skip'].map(what => [what, kind(what)])),
  ...Object.fromEntries(['array', 'map', 'text type', 'XML element', 'XML fragment', 'XML hook', 'XML text'].map((what, n) => [what, type(n)])),
  'an any-list of several': wider,
  'several marks': r => marked(r).length > 1,
  'a type under a key': r => r.blocks.some(b => b.kind === 'type' && b.key !== null),
  'a type in a type': r => r.blocks.some(b => b.kind === 'type' && b.parent !== null),
  'all of format, type and any': r => ['format', 'type', 'any'].every(what => kind(what)(r)),
  'several clients': r => new Set(r.blocks.map(b => b.client)).size > 1
}
const has = Object.entries(features).map(([what, test]) => {
  const n = forms.map(f => readable.filter(({ form, update }) => form === f && test(whole(form, update))).length)
  least(`updates by Yjs with ${what}`, Math.min(...n), 12)
  return `${what} ${n.join('+')}`
})

// ---- diffs of these, into both forms, against vectors of all kinds and Yjs's own

const namesTwice = ({ form, update }) => {
  const names = marked(whole(form, update)).map(b => hex(update.slice(b.mark.place, b.mark.place + b.mark.bytes)))
  return new Set(names).size < names.length
}
const small = readable.filter(({ update }, k) => update.length <= 260 && k % 4 < 2)
const byYjs = []
const real = (form, written, update, vector) => {
  diffs.fitted(random, form, written, update, vector, byYjs.length)
  byYjs.push({ form, written, update, vector })
}
small.forEach(({ form, update }, k) => {
  const of = whole(form, update)
  const against = k % 8 === 0 ? [pick(vectors), [0]] : [someVector(of, wide)]
  against.forEach((vector, j) => real(form, forms[(j + (k >> 1)) % 2], update, vector))
})
// Any-lists of several entries, cut inside, in all pairs of forms; of updates without formats, so that both can be written.
for (const form of forms) {
  const found = readable.filter(m => m.form === form && m.update.length <= 300).flatMap(({ update }) => {
    const { blocks } = whole(form, update)
    return blocks.some(b => b.kind === 'format') ? [] : blocks.filter(b => b.kind === 'any' && b.length > 1n).map(b => [update, b])
  })
  shuffled(found).slice(0, 40).forEach(([update, b]) => {
    for (const written of forms) real(form, written, update, vectorOf([[b.client, b.clock + between(1n, b.length)]]))
  })
  // So with a node name that stands twice.
  const again = readable.filter(m => m.form === form && m.update.length <= 400 && !kind('format')(whole(form, m.update)) && namesTwice(m))
  shuffled(again).slice(0, 20).forEach(({ update }) => forms.forEach(written => real(form, written, update, [0])))
}
least('diffs of updates by Yjs', byYjs.length, 1000)
const answered = byYjs.map(d => ({ ...d, r: diffs.answer(d.form, d.written, d.update, d.vector) }))
const cut = (r, what) => r.number === 0 && r.sections.some(x => r.read.blocks.some(b => b.client === x.client && b.clock < x.clock && b.clock + b.length > x.clock && b.kind === what))
const kept = test => r => r.number === 0 && r.sections.some(x => x.blocks.some(test))
const twice = r => r.number === 0 && (marks => new Set(marks).size < marks.length)(r.sections.flatMap(x => x.blocks).flatMap(b => b.mark === undefined ? [] : [b.mark]))
const wanted = {
  'a cut any-list': [20, r => cut(r, 'any')],
  'a cut text': [5, r => cut(r, 'text')],
  'a format': [20, kept(b => b.value !== undefined), true],
  'a type': [40, kept(b => b.type !== undefined)],
  'a node name': [20, kept(b => b.type !== undefined && b.mark !== undefined)],
  'an any-list': [40, kept(b => b.values !== undefined)],
  'a mark twice': [5, twice],
  'refused 19': [20, r => r.number === 19, false]
}
// Of a format and of 19 there are some just where the forms are the same, and where they are not.
const hasDiffs = Object.entries(wanted).map(([what, [few, test, same]]) => {
  const n = pairs.map(([form, written]) => answered.filter(d => d.form === form && d.written === written && test(d.r)).length)
  const counted = pairs.flatMap(([form, written], k) => same === undefined || same === (form === written) ? [n[k]] : [])
  least(`diffs of updates by Yjs with ${what}`, Math.min(...counted), few)
  return `${what} ${n.join('+')}`
})
// Some are diffed again.
answered.forEach(({ written, vector, r }, k) => {
  if (k % 9 === 0 && r.number === 0) diffs.diff(written, forms[(k >> 1) % 2], r.bytes, vector)
})

// ---- sorts: what is inside a type waits for it; against the state of documents that Yjs edited

let sorted = 0
const sortedBy = { taken: 0, pending: 0, 'waiting for a parent': 0 }
const talks = many(30, k => {
  const clients = [[2, 1], [1, 2], [9, 5], [300, 70000, 9], [0, 127, 128], [9007199254740991, 0, 1099511627776]][k % 6]
  const last = 6 + random(5)
  return documents.conversation({
    clients, gc: k % 5 !== 4, turns: last, who: () => random(clients.length), hears: () => random(6) > 0, say: doc => many(1 + random(2), () => rich.edit(doc))
  })
})
const held = (sent, numbers) => {
  const doc = yjsSorts.empty()
  for (const n of documents.closed(sent, numbers)) Y.applyUpdate(doc, sent[n].one)
  return doc
}
const sortReal = (form, update, doc) => {
  const vector = [...Y.encodeStateVector(doc)]
  if (update.length > 500 || whole(form, update).number !== 0) return
  const r = sorts.answer(form, update, vector)
  yjsSorts.compareDocument(form, update, vector, sorts.answer13(form, update, vector), r.across, doc)
  sorts.fitted(random, form, update, vector, sorted++)
  const isNew = b => ['format', 'type', 'any'].includes(b.kind)
  if (r.read.blocks.some(b => isNew(b) && !r.rest.includes(b))) sortedBy.taken++
  if (r.rest.some(isNew)) sortedBy.pending++
  if (r.fronts.some((b, n) => b.parent !== null && b.parent.client === r.pending[n][1])) sortedBy['waiting for a parent']++
}
talks.forEach(sent => {
  const all = sent.map((_, n) => n)
  for (let j = 0; j < 8; j++) {
    const form = pick(forms)
    const known = j < 3 ? pick([[], many(random(sent.length), n => n), all.filter(() => random(4) === 0)]) : many(j % 3, n => n)
    // Some of what was sent, or the last of it, which rests on what came before.
    const others = j < 3 ? sent.filter(() => random(3) > 0 || j === 0) : sent.slice(random(sent.length))
    if (others.length === 0) continue
    const update = j === 7 ? (form === 1 ? Y.encodeStateAsUpdate(held(sent, all)) : Y.encodeStateAsUpdateV2(held(sent, all)))
      : form === 1 ? Y.mergeUpdates(others.map(x => x.one)) : Y.mergeUpdatesV2(others.map(x => x.two))
    sortReal(form, [...update], held(sent, known))
  }
})
// One client makes types in a map, and the other puts something into the first of them, before the map has all of them.
const boxes = [
  [() => new Y.Text(), text => text.insert(0, 'remark', { color: 'red' })],
  [() => new Y.Array(), array => array.insert(0, [1, 'a', null])],
  [() => new Y.Map(), map => map.set('k', { a: [true] })],
  [() => new Y.XmlElement('p'), element => element.insert(0, [new Y.XmlElement('span'), new Y.XmlText('a')])],
  [() => new Y.XmlElement('p'), element => element.setAttribute('k', 'v')],
  [() => new Y.XmlText(), text => text.insert(0, 'a', { bold: true })]
]
for (const clients of [[9, 5], [5, 9], [300, 70000]]) {
  boxes.forEach(([box, put], k) => {
    const say = (doc, n) => n < 3 ? doc.getMap('boxes').set(`${n}`, box()) : put(doc.getMap('boxes').get(`${k % 3}`))
    const sent = documents.conversation({ clients, gc: true, turns: 4, who: n => n < 3 ? 0 : 1, hears: () => true, say })
    for (let j = 0; j <= 3; j++) sortReal(forms[(j + k) % 2], [...(forms[(j + k) % 2] === 1 ? sent[3].one : sent[3].two)], held(sent, many(j, n => n)))
  })
}
least('sorts of updates by Yjs', sorted, 90)
Object.entries(sortedBy).forEach(([what, n]) => least(`sorts of updates by Yjs with formats, types or any-lists ${what}`, n, what === 'waiting for a parent' ? 5 : 25))

// ---- shapes and spellings that Yjs does not write: read, diffed, sorted

const shapes = many(420, k => {
  const form = forms[k % 2]
  return { form, update: s.update(form, some(form), k % 4 < 2 ? null : loose) }
})
shapes.forEach(({ form, update }, k) => {
  const r = whole(form, update)
  if (r.number !== 0) throw new Error(`an update that should read is refused ${r.number}: form ${form}, ${hex(update)}`)
  updates.read(form, update, ...(k % 3 === 0 ? [512, 1024] : [r.blocks.length, r.rangesRead]))
  if (k % 5 === 0 && r.blocks.length > 0) updates.content(form, random(r.blocks.length), update)
  if (k % 7 === 0) updates.list([form, ...update])
  if (k % 7 === 1) updates.strict(form, update)
  const [written, vector] = [forms[(k >> 1) % 2], someVector(r, wide)]
  diffs.fitted(random, form, written, update, vector, k)
  if (k % 4 === 0) diffs.diff(form, 3 - written, update, vector)
  const again = diffs.answer(form, written, update, vector)
  if (k % 9 === 0 && again.number === 0) diffs.diff(written, forms[(k >> 1) % 2], again.bytes, vector)
  if (k % 6 === 0) sorts.sort(form, update, vector)
})

// ---- any-values: each cut after each entry, into both forms; nested to the limit and over it, in any mixture

for (let k = 0; k < 40; k++) {
  const entries = many(1 + random(7), () => someAny(random(4)))
  const block = { info: pick([8, 0x28, 0x48, 0x88]), name: 't', key: 'k', left: [9, 2], right: [9, 3], values: { count: entries.length, bytes: entries.flat() } }
  for (const form of forms) {
    const update = s.update(form, { sections: [section(5, 3, block)] })
    if (k % 4 === 0) for (let n = 0; n <= entries.length; n++) diffs.diff(form, forms[(n + k) % 2], update, vectorOf([[5, 3 + n]]))
    else diffs.diff(form, forms[k % 2], update, vectorOf([[5, 3 + random(entries.length + 1)]]))
  }
}
const inside = (depth, value) => depth === 0 ? value : inside(depth - 1, pick([() => [117, 1, ...value], () => [118, 1, ...s.sized(s.utf8(pick(['', 'k', 'é']))), ...value], () => [117, 2, 126, ...value]])())
for (const depth of [1, 2, 14, 15, 16, 17, 18, 40]) {
  for (let k = 0; k < 6; k++) {
    const value = inside(depth, pick([[126], [125, 5], [119, 1, 97], [117, 0], [118, 0]]))
    const list = { info: 8, name: 't', values: { count: 2, bytes: [120, ...value] } }
    for (const form of forms) updates.read(form, s.update(form, { sections: [section(5, 0, list, gc(1))] }))
    updates.read(2, s.update(2, { sections: [section(5, 0, { info: 6, name: 't', mark: 'b', value })] }))
  }
}
// Counts, byte lengths and integers about what there is, in all lengths.
for (const size of [0n, 1n, 2n, 3n, 127n, 128n, 2n ** 31n, 2n ** 32n, 2n ** 53n, 2n ** 63n - 1n]) {
  for (const tag of [116, 117, 118, 119]) {
    for (const rest of [[], [97], [1, 97, 126, 0]]) updates.read(1, bytes(byHand.ANY).concat(1, tag, s.u(size), rest, 0))
    updates.read(1, bytes(byHand.ANY).concat(1, tag, s.padded(s.u(size), 9), [1, 97, 126], 0))
  }
  for (const minus of [0, 64]) {
    const spelt = s.u(size)
    if (spelt.length < 9) updates.read(1, bytes(byHand.ANY).concat(1, 125, (spelt[0] & 63) | minus | 128, spelt, 0))
  }
  updates.read(1, s.update(1, { sections: [section(5, 0, { info: 8, name: 't', values: { count: size, bytes: [126, 126] } })] }))
  updates.read(2, s.update(2, { sections: [section(5, 0, { info: 8, name: 't', values: { count: size, bytes: [126, 126] } })] }))
}

// ---- keys: lists up to their end, known numbers between them

for (const n of [1, 2, 255, 256, 257]) {
  for (const again of [0, 3]) {
    const names = many(n, k => `k${k}`)
    const blocks = [...names, ...many(again, () => pick(names))].map((mark, k) => k % 3 === 0 ? { info: 7, name: 't', type: pick([3, 5]), mark } : { info: 6, name: 't', mark, value: [120] })
    const update = s.update(2, { sections: [section(5, 0, ...blocks)] })
    updates.read(2, update)
    diffs.diff(2, 2, update, vectorOf([[5, random(3)]]))
    diffs.diff(2, 1, update, [0])
  }
}
for (let k = 0; k < 120; k++) {
  // Any numbers, with texts for some of them: fewer, as many and more than are taken.
  const n = 1 + random(8)
  const numbers = many(n, () => pick([0, 1, 2, 3, random(6), random(300)]))
  const kinds = numbers.map(() => pick([6, 7]))
  updates.read(2, s.two({
    key: s.differences(numbers, k % 2 === 0 ? null : loose),
    client: s.numbers(many(n, () => 5)),
    left: s.differences(many(n - 1, () => 0)),
    info: s.bytes(kinds.map((x, j) => j === 0 ? x : x | 0x80)),
    text: s.texts(['t', ...many(random(n + 2), () => pick(['b', 'é', '', '😀', 'bold']))]),
    parent: [1],
    type: s.numbers(kinds.filter(x => x === 7).map(() => pick([3, 5]))),
    rest: [1, n, 0, ...kinds.filter(x => x === 6).map(() => 120), 0]
  }))
}

// ---- every prefix and damage: each byte changed, left out, and one put in before it

const short = [
  ...byHand.BOLD.map((text, k) => ({ form: k + 1, update: bytes(text) })),
  ...forms.map(form => ({
    form,
    update: s.update(form, {
      sections: [section(9, 2, { info: 0x28, name: 't', key: 'k', values: { count: 2, bytes: bytes('76 01 01 61 75 02 7d c5 01 7e 7b 3f f8 00 00 00 00 00 00') } }, { info: 0x87, left: [9, 2], type: 3, mark: 'p' }),
        section(5, 0, { info: 7, name: 'x', type: 5, mark: 'p' }, { info: 6, parent: [9, 4], mark: 'é', value: form === 1 ? s.utf8('"r"') : bytes('77 01 72') }, { info: 0x87, left: [5, 0], type: 1 })],
      deletes: [[9, [[2, 1]]]]
    })
  })),
  ...forms.flatMap(form => {
    const fits = readable.filter(m => m.form === form && m.update.length >= 24 && m.update.length <= (form === 1 ? 48 : 64))
    return [...new Set(['format', 'any', 'XML element', 'XML hook', 'a type in a type', 'an any-list of several', 'several marks'].map(what => fits.find(m => features[what](whole(m.form, m.update)))).filter(m => m !== undefined))]
  })
]
short.forEach(({ form, update }, j) => {
  for (let n = 0; n < update.length; n++) {
    updates.read(form, update.slice(0, n))
    if (j < 4) updates.list([form, ...update.slice(0, n)])
  }
  update.forEach((b, k) => {
    for (const x of new Set([0, 1, 6, 7, 8, b ^ 1, b ^ 64, b ^ 128, 117, 118, 255, random(256)])) if (x !== b) updates.read(form, replaced(update, k, x))
    if (j < 4) updates.content(form, random(3), replaced(update, k, random(256)))
    if (j < 4) diffs.diff(form, forms[k % 2], replaced(update, k, random(256)), vectorOf([[9, 3]]))
    updates.read(form, replaced(update, k))
    for (const x of [0, 117, random(256)]) updates.read(form, replaced(update, k, x, b))
  })
})
;[...made, ...shapes].forEach(({ form, update }, k) => {
  if (update.length > 300) return
  if (k % 2 === 0) updates.read(form, damaged(update))
  if (k % 4 === 1) updates.read(form, damaged(damaged(update)), random(12), random(12))
  if (k % 8 === 3) updates.read(form, update.slice(0, random(update.length)))
  if (k % 16 === 7) updates.read(3 - form, update)
  if (k % 16 === 9) diffs.fitted(random, form, pick(forms), damaged(update), someVector(whole(form, update), wide), k)
  if (k % 32 === 11) sorts.sort(form, damaged(update), [0])
  if (k % 32 === 13) updates.strict(form, damaged(update))
  if (k % 32 === 15) updates.list([form, ...damaged(update)])
})

const all = [updates, diffs, sorts]
const numbers = n => all.reduce((sum, c) => sum + (c.refused.get(n) ?? 0), 0)
least('cases refused 19', numbers(19), 150)
least('cases refused 5', numbers(5), 1000)
fs.writeFileSync(path.join(folder, 'marks.stdin'), Buffer.concat(all.map(c => c.stream())))
fs.writeFileSync(path.join(folder, 'marks.stdout'), all.map(c => c.output()).join(''))
console.log(all.map(c => c.told()).join('\n'))
console.log(`updates by Yjs with marks, values and types: ${readable.length}, form 1 + form 2 with ${has.join(', ')}`)
console.log(`diffs of these: ${byYjs.length}; by pairs of forms 1 to 1, 1 to 2, 2 to 1, 2 to 2, with ${hasDiffs.join(', ')}; sorts: ${sorted}, ${Object.entries(sortedBy).map(([what, n]) => `${what} ${n}`).join(', ')}`)
