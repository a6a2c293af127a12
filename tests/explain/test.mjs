// Holds `explain` to a second reader (model.mjs) over every update of the case stream that reads, and over updates that Yjs makes here: each line, word by word, of
// each block; of an update with many blocks those at its ends and some between. Of an update that reads strictly, with few blocks, no byte stays unexplained: what
// lines say of its bytes, with what no block draws (heads, counts, lengths of columns, the delete set), tiles the file. WASM names another library than web/wairokabi.wasm.
import assert from 'node:assert/strict'
import { existsSync } from 'node:fs'
import { createRequire } from 'node:module'
import { load, Refused } from '../../bindings/js/index.js'
import { cases } from '../../bindings/js/test/stream.mjs'
import { explained } from './model.mjs'

const w = await load(process.env.WASM ? new URL(process.env.WASM, `file://${process.cwd()}/`) : undefined)
const MANY = 40

/** A line of the binding as the words that it was made of. */
const wordsOf = l => [l.number, l.value, l.place ?? 0, l.bytes, l.endless ? 2 : l.nth === null ? 0 : 1, l.nth === null ? 0 : l.nth + 1, l.of ?? 0,
  l.base ?? 0, l.difference === null ? 0 : l.difference < 0 ? 2 : 1, Math.abs(l.difference ?? 0), l.part?.place ?? 0, l.part?.bytes ?? 0]

/** Where a line says that bytes lie: its own, and those that it leads to. */
const spansOf = ([, , place, bytes, , , , , , , partPlace, partBytes]) => [[place, bytes], [partPlace, partBytes]]

/** Spans that are apart, or the same, from the first byte to the last: a run is drawn from several times, and so is a key. */
const tiles = (spans, length) => {
  const apart = [...new Map(spans.filter(([, bytes]) => bytes > 0).map(span => [span.join(), span])).values()].sort((a, b) => a[0] - b[0])
  let at = 0
  for (const [place, bytes] of apart) {
    if (place !== at) return false
    at += bytes
  }
  return at === length
}
const isStrict = (form, update) => {
  try {
    w.readStrict(form, update)
    return true
  } catch (e) {
    if (!(e instanceof Refused)) throw e
    return false
  }
}

const counts = { updates: 0, refused: 0, blocks: 0, lines: 0, tiled: 0 }
const fields = new Map()
const seen = new Set()

const compare = (form, update) => {
  const key = form + Buffer.from(update).toString('latin1')
  if (seen.has(key)) return
  seen.add(key)
  let blocks
  try {
    ({ blocks } = w.read(form, update))
  } catch (e) {
    if (!(e instanceof Refused)) throw e
    counts.refused++
    assert.throws(() => w.explain(form, update, 0), refused => refused.number === e.number && refused.at === e.at)
    return
  }
  const { kept, others, heads } = explained(form, update)
  const spans = [...heads, ...others.flatMap(spansOf)]
  assert.equal(kept.length, blocks.length)
  blocks.forEach((_, n) => {
    if (blocks.length > MANY && n > 8 && n < blocks.length - 8 && n % 997 !== 0) return
    const lines = w.explain(form, update, n)
    spans.push(...lines.map(wordsOf).flatMap(spansOf))
    assert.deepEqual(lines.map(wordsOf), kept[n], `block ${n} of form ${form} ${Buffer.from(update).toString('hex').slice(0, 400)}`)
    for (const { field } of lines) fields.set(field, (fields.get(field) ?? 0) + 1)
    counts.blocks++
    counts.lines += lines.length
  })
  assert.throws(() => w.explain(form, update, blocks.length), e => e.number === 11)
  counts.updates++
  if (blocks.length > MANY || !isStrict(form, update)) return
  assert.ok(tiles(spans, update.length), `form ${form} ${Buffer.from(update).toString('hex').slice(0, 400)}`)
  counts.tiled++
}

/** Edits of each kind, on two documents, and what each has of them in both forms, whole and from the other's state on. */
const edited = Y => {
  let state = 11
  const random = n => {
    state = (state * 1103515245 + 12345) % 2147483648
    return Math.floor(state / 65536) % n
  }
  const edit = doc => {
    const [text, list, map, xml] = [doc.getText('t'), doc.getArray('l'), doc.getMap('m'), doc.getXmlFragment('x')]
    const edits = [
      () => text.insert(random(text.length + 1), ['a', 'bc', 'é', '😀', 'line\n'][random(5)]),
      () => text.length > 3 && text.delete(random(text.length - 2), 1 + random(2)),
      () => text.length > 2 && text.format(random(text.length - 1), 1, { [['bold', 'colour'][random(2)]]: [true, null, 'red', { a: [1] }][random(4)] }),
      () => list.insert(random(list.length + 1), [[random(9)], ['x', null, { a: [true] }], [new Uint8Array([1, 2])], [1.5, -3, 'é']][random(4)]),
      () => map.set(['k', 'l'][random(2)], [random(99), new Y.Map([['in', 1]]), new Y.Text('deep'), new Y.Array()][random(4)]),
      () => xml.insert(random(xml.length + 1), [[new Y.XmlElement('p')], [new Y.XmlText('words')], [new Y.XmlHook('h')]][random(3)])
    ]
    edits[random(edits.length)]()
  }
  for (let round = 0; round < 120; round++) {
    const docs = [3, 9, 2 ** 31 + 5].map(client => Object.assign(new Y.Doc({ gc: round % 2 === 0 }), { clientID: client }))
    for (let step = 0; step < 25; step++) {
      const doc = docs[random(3)]
      edit(doc)
      if (random(4) === 0) Y.applyUpdate(docs[random(3)], Y.encodeStateAsUpdate(doc))
    }
    const vector = Y.encodeStateVector(docs[1])
    for (const doc of docs) {
      for (const since of [undefined, vector]) {
        compare(1, Y.encodeStateAsUpdate(doc, since))
        compare(2, Y.encodeStateAsUpdateV2(doc, since))
      }
    }
  }
}

for (const [operation, given] of cases()) {
  if (operation !== 14 && operation !== 21) continue
  const [form, , , update] = given
  if (form === 1 || form === 2) compare(form, update)
}
const ofStream = counts.updates
console.log(`of the case stream ${ofStream} updates that read, and ${counts.refused} that are refused, by the same number and byte`)
if (existsSync('/usr/share/nodejs/yjs/dist/yjs.cjs')) edited(createRequire(import.meta.url)('../../tools/cases/yjs.cjs').Y)
console.log(`made by Yjs here ${counts.updates - ofStream} updates`)
console.log(`of these ${counts.tiled} that read strictly are explained to the last byte`)
console.log(`lines by field: ${[...fields].map(([field, count]) => `${field} ${count}`).join(', ')}`)
assert.ok(ofStream > 5000 && counts.tiled > 5000)
console.log(`explain test: ${counts.lines} lines of ${counts.blocks} blocks of ${counts.updates} updates held, 0 not`)
