// Writes the cases of summaries (operations 19 and 20) and what is expected of them: summaries.cjs FOLDER writes FOLDER/summaries.stdin and
// FOLDER/summaries.stdout. The same every time. `run` beside it installs what this needs.
'use strict'
const fs = require('fs')
const path = require('path')
const model = require('./summary-model.cjs')
const yjs = require('./yjs.cjs')
const s = require('./spelling.cjs')
const { whole } = require('./update-cases.cjs')
const { limited, sized, roomOf, LONG, hex, bytes, first, begin: beginStream, worked } = require('./stream.cjs')
const { gc, skip, section, replaced, ...shape } = require('./shapes.cjs')
const { begin, many } = require('./random.cjs')

const folder = process.argv[2]
const loose = begin(0x510e527f)
const { random, pick } = loose
const { some, damaged, tangled } = shape.begin(loose)
const { Y } = yjs
const c = beginStream()
const forms = [1, 2]

const write = (form, update, room = 2000) => {
  if (form === 1 || form === 2) whole(form, update)
  const r = model.write(form, update, room)
  return c.add(19, [limited('form', form, 255), roomOf(room), sized(update, LONG)], [first(r), ...(r.number === 0 ? [hex(r.bytes)] : []), 'zero'])
}
const read = (summary, rows = 64) => {
  const r = model.read([...summary], rows)
  return c.add(20, [limited('rows', rows, 2048), sized(summary, LONG)], [first(r), ...(r.number === 0 ? r.rows.map(row => row.join(':')) : []), 'zero'])
}

// ---- worked by hand: the rows of READING-02, S1 to S11

const CASE_C = bytes('010105000401017402686900')
const OF_C = '102000000000000500000000000000080004'
worked(write(1, CASE_C), `0 ${OF_C} zero`)
worked(write(2, bytes('0000010500000104060374686901020101000001010000')), `0 ${OF_C} zero`)
worked(write(1, CASE_C, 18), `0 ${OF_C} zero`)
worked(write(1, CASE_C, 17), '10@0 zero')
worked(write(1, CASE_C, 0), '10@0 zero')
worked(write(0, CASE_C), '12@0 zero')
worked(write(3, []), '12@0 zero')
worked(write(1, bytes('0000')), '0 1000 zero')
worked(write(1, bytes('0000'), 1), '10@0 zero')
worked(write(1, bytes('0100050300')), '0 1000 zero')
worked(write(1, bytes('010105030a0400')), `0 ${hex(model.summaryOf([[5, 3, 7, 1]]))} zero`)
worked(write(1, bytes('01010503000000')), `0 ${hex(model.summaryOf([[5, 3, 3, 1]]))} zero`)
worked(write(1, bytes('0101050300')), '1@5 zero')
worked(write(1, bytes('01010503000100'.slice(0, 12))), '1@6 zero')
worked(read(bytes(OF_C)), '0 5:0:2:1 zero')
worked(read(bytes(OF_C), 0), '8@0 zero')
worked(read(bytes('1020'), 0), '1@0 zero')
worked(read(bytes('20')), '16@0 zero')
worked(read([]), '1@0 zero')
worked(read(bytes('10')), '1@0 zero')
worked(read(bytes('104000000000000900000000000000040000')), '1@0 zero')
worked(read(bytes('1820')), '3@0 zero')
worked(read(bytes('1001')), '17@0 zero')
worked(read(bytes('100000')), '17@0 zero')
worked(read(bytes('1000')), '0 zero')
worked(read(model.summaryOf([[9, 0, 1, 65535], [5, 0, 1, 1]])), '0 9:0:1:65535 5:0:1:1 zero')
worked(read(model.summaryOf([[9, 0, 1, 1], [9, 0, 1, 1]])), '17@0 zero')
worked(read(model.summaryOf([[5, 0, 1, 1], [9, 0, 1, 1]])), '17@0 zero')
worked(read(model.summaryOf([[9, 5, 5, 1]])), '0 9:5:5:1 zero')
worked(read(model.summaryOf([[9, 6, 5, 1]])), '17@0 zero')
worked(read(model.summaryOf([[9, 5, 5, 0]])), '17@0 zero')
const widest = [2n ** 53n - 1n, 2n ** 31n - 1n, 2n ** 31n - 1n, 65535n]
worked(read(model.summaryOf([widest])), `0 ${widest.join(':')} zero`)

// ---- how long they are

const ofClients = n => s.update(1, { sections: many(n, k => section((k * 37) % 64, k, gc(k))), deletes: [] })
for (const n of [0, 1, 2, 63, 64]) {
  const size = Math.ceil((11 + 131 * n) / 8)
  for (const room of [size, size + 1, size - 1]) write(1, ofClients(n), room)
}
write(1, [65, ...many(65, k => [1, k, 0, 0, 1]).flat(), 0])
write(2, s.update(2, { sections: [section(5, 0, ...many(65535, () => gc(0)))], deletes: [] }))

// ---- every summary that is written is read, too; with rows enough and not, cut off, with bits changed

let rewritten = 0
const both = (form, update, room) => {
  write(form, update, room)
  const r = model.write(form, update, 2000)
  if (r.number !== 0) return
  const back = model.read(r.bytes, 64)
  if (back.number !== 0 || back.rows.join() !== r.rows.join()) throw new Error(`what the model writes it does not read: ${hex(r.bytes)}`)
  rewritten++
  read(r.bytes, r.rows.length)
  if (rewritten % 5 === 0 && r.rows.length > 0) read(r.bytes, r.rows.length - 1)
  if (rewritten % 7 === 0) read(r.bytes.slice(0, random(r.bytes.length)), pick([0, 1, 64]))
  if (rewritten % 3 === 0) {
    const k = random(r.bytes.length)
    read(replaced(r.bytes, k, r.bytes[k] ^ (1 << random(8))), pick([r.rows.length, 64]))
  }
  if (rewritten % 11 === 0) read([...r.bytes, pick([0, 1, 255])])
}

// ---- updates by Yjs: its own structs give the same rows

let byYjs = 0
const clients = [1, 5, 9, 77, 128, 70000, 2 ** 31, 2 ** 32 - 1]
for (let k = 0; k < 150; k++) {
  const docs = many(1 + random(4), n => {
    const doc = new Y.Doc({ gc: random(2) === 0 })
    doc.clientID = clients[(k + 3 * n) % clients.length]
    return doc
  })
  for (let turn = 0; turn < 3 + random(8); turn++) {
    const doc = pick(docs)
    const text = doc.getText('t')
    if (text.length > 3 && random(4) === 0) text.delete(random(text.length - 2), 2)
    else text.insert(random(text.length + 1), pick(['a', 'bc', 'é', '😀', 'word ']))
    if (random(2) === 0) docs.forEach(other => Y.applyUpdate(other, Y.encodeStateAsUpdate(doc)))
  }
  docs.forEach(other => docs.forEach(doc => Y.applyUpdate(other, Y.encodeStateAsUpdate(doc))))
  const vector = Y.encodeStateVector(pick([docs[0], new Y.Doc()]))
  for (const [form, update] of [[1, Y.encodeStateAsUpdate(docs[0])], [2, Y.encodeStateAsUpdateV2(docs[0])], [1, Y.encodeStateAsUpdate(docs[docs.length - 1], vector)]]) {
    const theirs = yjs.read(form, [...update]).structs.filter(yjs.kept)
    const rows = model.rowsOf(theirs.map(x => ({ client: x.id.client, clock: x.id.clock, length: x.length })))
    const r = model.write(form, [...update], 2000)
    if (r.number !== 0 || r.rows.join() !== rows.join()) throw new Error(`the model and Yjs part at a summary: form ${form} ${hex(update)}`)
    both(form, [...update], k % 6 === 0 ? r.bytes.length - 1 : r.bytes.length)
    byYjs++
  }
}

// ---- shapes that Yjs does not write, and damage

const pools = [[5, 7, 9], [0, 127, 128, 70000], [2n ** 53n - 1n, 2n ** 32n, 9, 5, 0]]
for (let k = 0; k < 300; k++) {
  const form = forms[k % 2]
  const update = s.update(form, k % 3 === 0 ? some(form) : { sections: tangled(pools[k % 3]), deletes: random(4) === 0 ? [[5, [[random(3), 2]]]] : [] }, k % 4 < 3 ? null : loose)
  both(form, update, 2000)
  if (k % 3 === 1) write(form, damaged(update))
}
for (const form of forms) {
  const update = s.update(form, { sections: [section(9, 3, gc(1), skip(2), gc(0)), section(5, 0), section(300, 7, gc(4))], deletes: [[5, [[0, 1]]]] })
  for (let n = 0; n <= update.length; n++) write(form, update.slice(0, n))
}

// ---- rows of all sizes, in order and not

const sizes = [0n, 1n, 2n, 255n, 256n, 65535n, 2n ** 30n, 2n ** 31n - 1n]
for (let k = 0; k < 300; k++) {
  const rows = many(random(6), () => [pick([0n, 1n, 5n, 2n ** 32n, 2n ** 53n - 1n, BigInt(random(1000))]), pick(sizes), pick(sizes), pick([0n, 1n, 1n, 2n, 65535n])])
  if (k % 2 === 0) {
    rows.sort((a, b) => a[0] < b[0] ? 1 : a[0] > b[0] ? -1 : 0)
    rows.forEach(row => { if (row[1] > row[2]) [row[1], row[2]] = [row[2], row[1]]; if (k % 4 === 0 && row[3] === 0n) row[3] = 7n })
  }
  read(model.summaryOf(rows), pick([rows.length, 64, random(4)]))
}
const many64 = many(64, k => [BigInt(1000 - k), BigInt(k), BigInt(2 * k), BigInt(k + 1)])
for (let n = 1040; n <= 1050; n++) read(model.summaryOf(many64).slice(0, n))
read(model.summaryOf(many64), 63)
read(model.summaryOf(many64), 2048)
for (let n = 0; n < 16; n++) read([n * 16, 0])
for (let n = 0; n < 256; n += 5) read([16 + (n >> 4), (n & 15) << 4, 0])

fs.writeFileSync(path.join(folder, 'summaries.stdin'), c.stream())
fs.writeFileSync(path.join(folder, 'summaries.stdout'), c.output())
console.log(`cases  ${c.told(c.counts)}; refused  ${c.told(c.refused)}; summaries of updates by Yjs, whose own structs give the rows: ${byYjs}; written and read: ${rewritten}`)
