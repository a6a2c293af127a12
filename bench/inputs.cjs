// inputs.cjs DIR: writes what bench/run measures, the same bytes every time, and DIR/list: a line each of name, blocks, delete ranges as spelt, and what is
// measured on it. Documents are made by Yjs; what no editor makes is spelt by tools/cases.
'use strict'
const fs = require('fs')
const path = require('path')
const Y = require('/usr/share/nodejs/yjs/dist/yjs.cjs')
const lib0 = require('/usr/share/nodejs/lib0/dist/encoding.cjs')
const { begin, many } = require('../tools/cases/random.cjs')
const spelling = require('../tools/cases/spelling.cjs')
const { numbered } = require('../tools/cases/yjs-diffs.cjs')

const [, , dir] = process.argv
fs.mkdirSync(dir, { recursive: true })
const list = []
const put = (name, bytes) => fs.writeFileSync(path.join(dir, name), bytes)
const entry = (name, blocks, ranges, ...work) => list.push([name, blocks, ranges, work.join(',')].join('\t'))

const BOTH = ['read1', 'read2', 'diff11', 'diff12', 'diff21', 'diff22', 'sort1', 'sort2', 'held1', 'held2']
const words = ('wai ro kabi kōrero awa maunga rangi whenua moana te ngā me he ki o i a mai atu iho ake the of and to in that it was for on are with as ' +
  'line reading editor gateway analyst auditor proof 読み 編集 größe naïve Straße').split(' ')

// A vector that has about half of each client's clocks, most of them inside a block.
const half = doc => {
  const e = lib0.createEncoder()
  const state = [...Y.decodeStateVector(Y.encodeStateVector(doc))].sort((a, b) => b[0] - a[0])
  lib0.writeVarUint(e, state.length)
  for (const [client, clock] of state) {
    lib0.writeVarUint(e, client)
    lib0.writeVarUint(e, clock >> 1)
  }
  return lib0.toUint8Array(e)
}
const structs = doc => [...doc.store.clients.values()].reduce((n, s) => n + s.length, 0)
const rangesOf = update => [...Y.decodeUpdate(update).ds.clients.values()].reduce((n, r) => n + r.length, 0)
const documentFor = (works, name, doc) => {
  const update = Y.encodeStateAsUpdate(doc)
  put(`${name}.1`, update)
  put(`${name}.2`, numbered(() => Y.encodeStateAsUpdateV2(doc)))
  put(`${name}.vector`, half(doc))
  entry(name, Y.decodeUpdate(update).structs.length, rangesOf(update), ...works)
}
const document = (name, doc, ...more) => documentFor([...BOTH, ...more], name, doc)

// ---- documents of so many blocks: eight clients edit one text at random places and set binaries under sixteen keys of a map

const edited = blocks => {
  const { random, pick } = begin(blocks)
  const doc = new Y.Doc()
  const text = doc.getText('t')
  const map = doc.getMap('m')
  const clients = many(8, k => 1000003 * (k + 1) + random(1000))
  while (structs(doc) < blocks) {
    doc.clientID = pick(clients)
    const left = blocks - structs(doc)
    const kind = random(20)
    if (left < 4 || kind < 2) map.set(`key ${random(16)}`, Uint8Array.from(many(random(24), () => random(256))))
    else if (kind < 5 && text.length > 20) text.delete(random(text.length - 8), 1 + random(6))
    else text.insert(random(text.length + 1), many(1 + random(3), () => pick(words)).join(' '))
  }
  return doc
}
const SIZES = [100, 316, 1000, 3162, 10000, 31623, 65535]
for (const n of SIZES) document(`size-${n}`, edited(n), ...(n === 100 || n === 10000 ? ['lent1'] : []))

// ---- documents with marks, maps, arrays and XML: eight clients colour words of one text, set plain values under sixteen keys of a map, put some into an array,
// and add elements. Keys of form 2 keep their numbers: as Yjs itself writes them there would be more than 256. A mark does not change its form, so there are no
// diffs into the other one.

const coloured = blocks => {
  const { random, pick } = begin(blocks + 1)
  const doc = new Y.Doc()
  const [text, map, array, xml] = [doc.getText('t'), doc.getMap('m'), doc.getArray('a'), doc.getXmlFragment('x')]
  const clients = many(8, k => 1000003 * (k + 1) + random(1000))
  const value = () => pick([random(1000), -random(100000), 'plain value', pick(words), true, null, 0.5, { unit: 'mg' }, [1, 2, 3], [[pick(words)], { of: random(9) }]])
  while (structs(doc) < blocks) {
    doc.clientID = pick(clients)
    const kind = random(20)
    if (blocks - structs(doc) < 8 || kind < 5) map.set(`key ${random(16)}`, value())
    else if (kind < 8) array.insert(random(array.length + 1), many(1 + random(4), value))
    else if (kind < 10) xml.insert(random(xml.length + 1), [new Y.XmlElement(pick(['p', 'h1', 'li', 'table']))])
    else if (kind < 15 && text.length > 20) text.format(random(text.length - 12), 2 + random(10), { [pick(['bold', 'italic', 'color', 'link'])]: pick([true, null, '#c2410c', 7]) })
    else text.insert(random(text.length + 1), many(1 + random(3), () => pick(words)).join(' '))
  }
  return doc
}
for (const n of [1000, 10000]) documentFor(['read1', 'read2', 'diff11', 'diff22', 'sort1', 'sort2', 'held1', 'held2'], `rich-${n}`, coloured(n))

// ---- an editing session: three people type words letter by letter, go elsewhere, take back letters, delete and paste sentences, and hear from each other
// every few hundred keys; `messages` has the update of each key

const session = keys => {
  const { random, pick } = begin(20261115)
  const messages = []
  const people = many(3, k => {
    const doc = new Y.Doc()
    doc.clientID = [3141592653, 271828182, 1618033988][k]
    doc.on('update', (update, origin) => {
      if (origin !== 'heard') messages.push(update)
    })
    return { doc, text: doc.getText('t'), at: 0, word: '' }
  })
  const hear = () => {
    for (const a of people) for (const b of people) if (a !== b) Y.applyUpdate(a.doc, Y.encodeStateAsUpdate(b.doc, Y.encodeStateVector(a.doc)), 'heard')
  }
  let before = 300
  for (let key = 0; key < keys; key++) {
    const p = people[random(3)]
    const { text } = p
    p.at = Math.min(p.at, text.length)
    const does = random(1000)
    if (does < 6) p.at = random(text.length + 1)
    else if (does < 30 && p.at > 4) {
      const back = 1 + random(4)
      p.at -= back
      text.delete(p.at, back)
    } else if (does < 33 && p.at + 40 < text.length) text.delete(p.at, 10 + random(30))
    else if (does < 36) {
      const sentence = many(4 + random(12), () => pick(words)).join(' ') + '. '
      text.insert(p.at, sentence)
      p.at += sentence.length
    } else {
      if (p.word === '') p.word = pick(words) + pick([' ', ' ', ' ', ', ', '. '])
      text.insert(p.at, p.word[0])
      p.word = p.word.slice(1)
      p.at++
    }
    if (--before === 0) {
      hear()
      before = 100 + random(500)
    }
  }
  hear()
  return { doc: people[0].doc, messages }
}
const { doc, messages } = session(60000)
document('session', doc)
const lengths = Buffer.alloc(4 * messages.length)
messages.forEach((m, k) => lengths.writeUInt32LE(m.length, 4 * k))
put('messages.1', Buffer.concat(messages))
put('messages.lengths', lengths)
entry('messages', messages.length, 0, 'each1')

// ---- worst cases

// One delete-set client, a million ranges of one id, the last first; and a million in no order.
const ranges = (clocks, client = 5) => {
  const e = lib0.createEncoder()
  for (const n of [0, 1, client, clocks.length]) lib0.writeVarUint(e, n)
  for (const clock of clocks) {
    lib0.writeVarUint(e, clock)
    lib0.writeVarUint(e, 1)
  }
  return lib0.toUint8Array(e)
}
const MILLION = 1000000
put('falling.1', ranges(many(MILLION, k => 2 * (MILLION - k))))
entry('falling', 0, MILLION, 'read1')
put('rising.1', ranges(many(MILLION, k => 2 * k)))
entry('rising', 0, MILLION, 'read1')
const mixed = many(MILLION, k => 2 * k)
const { random } = begin(7)
for (let k = MILLION - 1; k > 0; k--) {
  const j = random(k + 1)
  const c = mixed[k]
  mixed[k] = mixed[j]
  mixed[j] = c
}
put('mixed.1', ranges(mixed))
entry('mixed', 0, MILLION, 'read1')

// 64 clients, 1 to 64. `left` gives the left id of block k of a client, [client, clock], or null for none: then its parent is the text t.
const waiting = (name, counts, left, ...work) => {
  const sections = counts.map((n, c) => ({
    client: c + 1,
    clock: 0,
    blocks: many(n, k => {
      const id = left(c + 1, k)
      return id === null ? { info: 4, name: 't', text: 'a' } : { info: 132, left: id, text: 'a' }
    })
  })).reverse()
  const total = counts.reduce((a, b) => a + b)
  put(`${name}.1`, Uint8Array.from(spelling.update(1, { sections })))
  entry(name, total, 0, ...work)
}
const even = many(64, c => c === 63 ? 1023 : 1024)
// Each client's first block waits for the next client's first, round: nothing is taken.
waiting('ring', even, (c, k) => k === 0 ? [c % 64 + 1, 0] : [c, k - 1], 'sort1', 'held1')
// One client after the other, lowest first, one block each time: one front of 64 is ready at any time.
waiting('turns', even, (c, k) => c > 1 ? [c - 1, k] : k > 0 ? [64, k - 1] : null, 'sort1', 'held1')
// The same, highest first.
waiting('falling-turns', even, (c, k) => c < 64 ? (k < 1023 ? [c + 1, k] : [c, k - 1]) : k > 0 ? [1, k - 1] : null, 'sort1', 'held1')
// 63 clients wait for the last block of the lowest one.
const behind = [65535 - 63, ...many(63, () => 1)]
waiting('behind', behind, (c, k) => c > 1 ? [1, behind[0] - 1] : k > 0 ? [1, k - 1] : null, 'sort1', 'held1')
// All of them ready at once: no block waits for another client.
waiting('apart', even, (c, k) => k > 0 ? [c, k - 1] : null, 'sort1', 'held1')

// All of them hang on ids of client 1000, which has no blocks here, in no order; and a million held ranges have all of these ids, one each.
for (const [name, clock] of [['held-rising', k => 2 * k], ['held-falling', k => 2 * (MILLION - 1 - k)], ['held-mixed', k => mixed[k]]]) {
  put(`${name}.held`, ranges(many(MILLION, clock), 1000).slice(1))
  waiting(name, even, (c, k) => [1000, mixed[1024 * (c - 1) + k]], 'given1')
}

// ---- columns: 100,000 values, in runs of one half of the time

const column = (name, values, written, raw) => {
  put(`${name}.column`, written)
  put(`${name}.values`, raw)
  entry(name, values.length, 0, 'next', 'write')
}
{
  const { random, pick } = begin(99)
  const COUNT = 100000
  const inRuns = some => {
    const out = []
    while (out.length < COUNT) {
      const v = some()
      for (let n = random(2) === 0 ? 1 : 1 + random(6); n > 0 && out.length < COUNT; n--) out.push(v)
    }
    return out
  }
  const words8 = values => Buffer.from(BigUint64Array.from(values.map(BigInt)).buffer)
  const encoded = (encoder, values) => {
    values.forEach(v => encoder.write(v))
    return encoder.toUint8Array === undefined ? lib0.toUint8Array(encoder) : encoder.toUint8Array()
  }
  const numbers = inRuns(() => pick([random(64), random(8192), random(2 ** 20), 3141592653]))
  column('numbers', numbers, encoded(new lib0.UintOptRleEncoder(), numbers), words8(numbers))
  let clock = 1000000
  const steps = inRuns(() => pick([1, 1, 2, -3, random(200) - 80]))
  const clocks = steps.map(d => (clock += d))
  column('differences', clocks, encoded(new lib0.IntDiffOptRleEncoder(), clocks), words8(clocks))
  // a column of infos: its last run has no count, as Yjs writes it
  const infos = inRuns(() => pick([1, 4, 129, 132, 196, 3]))
  column('bytes', infos, encoded(new lib0.RleEncoder(lib0.writeUint8), infos), Buffer.from(infos))
  const texts = many(COUNT, () => random(3) > 0 ? pick([...'abcdefghijklmnop ōü読']) : pick(words) + ' ')
  const strings = new lib0.StringEncoder()
  texts.forEach(t => strings.write(t))
  const utf8 = Buffer.from(texts.join(''))
  const raw = Buffer.concat([words8([utf8.length]), utf8, words8(texts.map(t => t.length))])
  column('texts', texts, strings.toUint8Array(), raw)
}

put('list', list.join('\n') + '\n')
