// Writes the cases of strict reading (W-205) and what is expected of them: strict.cjs FOLDER writes FOLDER/strict.stdin and FOLDER/strict.stdout. The model
// marks every byte that it reads, so a byte that stays is one that nothing marked. `run` beside it installs what this needs.
'use strict'
const fs = require('fs')
const path = require('path')
const model = require('./update-model.cjs')
const { readUnsigned } = require('./model.cjs')
const c = require('./update-cases.cjs')
const s = require('./spelling.cjs')
const { bytes, worked: w } = require('./stream.cjs')
const { begin } = require('./random.cjs')

const folder = process.argv[2]
const loose = begin(0x2c1b3c6d)
const { random, pick } = loose
const documents = require('./documents.cjs').begin(loose)
const strict = (form, text, ...rows) => c.strict(form, bytes(text), ...rows)

// ---- worked by hand

const C = '01 01 05 00 04 01 01 74 02 68 69 00'
const D = '00 00 01 05 00 00 01 04 06 03 74 68 69 01 02 01 01 00 00 01 01 00 00'
const NOTHING = '00 00 00 00 00 00 01 00 00 00 00 00 00'
w(strict(1, '00 00', 0, 0), '0 blocks 0 ranges 0 zero')
w(strict(2, NOTHING, 0, 0), '0 blocks 0 ranges 0 zero')
w(strict(1, C), '0 blocks 1 5.0.2.text.-.-.7+1.-.-.9+2.-.- ranges 0 zero')
w(strict(2, D), '0 blocks 1 5.0.2.text.-.-.10+1.-.-.11+2.-.- ranges 0 zero')
// The form goes first, and no byte is 1, not 14; then the flag, before the columns are cut (T1). Form 1 has no flag.
w(strict(3, '01'), '12@0 zero')
w(strict(2, ''), '1@0 zero')
w(strict(2, '01'), '14@0 zero')
w(strict(2, '00'), '1@1 zero')
w(strict(2, 'ff 05'), '14@0 zero')
w(strict(2, D.replace('00', '01'), 0, 0), '14@0 zero')
w(strict(1, '01 00 05 00 00'), '0 blocks 0 ranges 0 zero')
// The lowest of a byte in the length column and one in the rest (T2); behind every other refusal, 8 and the delete set's too.
w(strict(2, '00 00 00 00 00 00 01 00 00 00 01 00 00 00 07'), '15@11 zero')
w(strict(1, C + ' 07', 0), '8@4 zero')
w(strict(1, C + ' 07'), '15@12 zero')
w(strict(2, '00 01 00 00 00 00 00 01 00 00 00 00 00 01 05'), '1@15 zero')
w(strict(2, '00 01 00 00 00 00 00 01 00 00 00 00 00 01 05 01 00 00', 0, 0), '8@16 zero')
w(strict(2, '00 01 00 00 00 00 00 01 00 00 00 00 00 01 05 01 00 00', 0, 1), '15@2 zero')
// A run is read with its first value: its count is read, and what it could still give is no byte (T3). A second run is.
w(strict(2, '00 00 01 05 00 00 02 00 07 01 00 00 00 01 01 01 01 00 00'), '0 blocks 1 5.0.1.gc.-.-.-.-.-.-.-.- ranges 0 zero')
w(strict(2, '00 00 01 05 00 00 03 00 00 00 01 00 00 00 01 01 01 01 00 00'), '15@9 zero')
w(strict(2, '00 00 02 45 7f 00 00 01 00 01 00 00 00 01 01 01 01 00 00'), '0 blocks 1 5.0.1.gc.-.-.-.-.-.-.-.- ranges 0 zero')
// Texts that no text takes, and a unit length that is not drawn (T4).
w(strict(2, '00 00 00 00 00 00 03 01 61 01 00 00 00 00 00'), '15@8 zero')
w(strict(2, '00 00 00 00 00 00 02 00 01 00 00 00 00 00'), '15@8 zero')
// Key and type columns, from which nothing is drawn here (T5).
w(strict(2, '00 01 00 00 00 00 00 01 00 00 00 00 00 00'), '15@2 zero')
w(strict(2, '00 00 00 00 00 00 01 00 00 02 00 00 00 00 00'), '15@10 zero')
// Form 1: any byte behind the delete set (T6).
w(strict(1, '00 00 07'), '15@2 zero')
w(strict(1, '00 01 05 01 00 01 ff ff'), '15@6 zero')

// ---- a form 2 update in its pieces: the nine columns and the rest

const pieces = update => {
  let at = 1
  const columns = model.COLUMNS.map(() => {
    const size = readUnsigned(update, BigInt(at))
    const from = Number(size.next)
    at = from + Number(size.value)
    return update.slice(from, at)
  })
  return { columns, rest: update.slice(at) }
}
const joined = (flag, { columns, rest }) => [flag, ...columns.flatMap(column => [...s.u(column.length), ...column]), ...rest]
const lengthened = ({ columns, rest }, k, more) => ({ columns: columns.map((column, j) => j === k ? [...column, ...more] : column), rest })
const TEXT = model.COLUMNS.indexOf('text')

// ---- updates by the real Yjs: as they are, and each column lengthened by what nothing draws

const outcomes = new Map()
const count = (what, form) => outcomes.set(`${what}, form ${form}`, (outcomes.get(`${what}, form ${form}`) ?? 0) + 1)
const { made } = documents.histories(40)
let whole = 0
for (const { form, update } of made) {
  const otherwise = model.readUpdate(form, update)
  if (otherwise.number !== 0) {
    count(`refused ${otherwise.number} either way`, form)
    if (random(8) === 0) c.strict(form, update)
    continue
  }
  const r = model.readUpdate(form, update, Infinity, Infinity, true)
  count(r.number === 0 ? 'read strictly' : `${r.number}`, form)
  if (update.length > 400 || random(9) > 0) continue
  whole++
  c.strict(form, update)
  c.strict(form, [...update, random(256)])
  c.strict(form, [...update, 0, 0], random(3), random(3))
  if (form === 1) continue
  const parts = pieces(update)
  c.strict(2, joined(1 + random(255), parts))
  model.COLUMNS.forEach((name, k) => {
    c.strict(2, joined(0, lengthened(parts, k, [random(128)])))
    // of a byte column the last value gets a count, and a byte of its own follows
    c.strict(2, joined(0, lengthened(parts, k, [random(64), random(64)])))
    c.strict(2, joined(0, lengthened(parts, k, [127, 0, 0])))
  })
  // a character that no text takes
  const text = parts.columns[TEXT]
  const size = readUnsigned(text, 0n)
  const end = Number(size.next + size.value)
  const longer = [...s.u(Number(size.value) + 1), ...text.slice(Number(size.next), end), 0x78, ...text.slice(end)]
  c.strict(2, joined(0, { columns: parts.columns.map((column, k) => k === TEXT ? longer : column), rest: parts.rest }))
  // two columns at once: the lower byte is blamed
  const two = [random(9), random(9)]
  c.strict(2, joined(0, lengthened(lengthened(parts, two[0], [5]), two[1], [6, 7])))
  // damaged in the rest, and a byte left in a column: what is read is refused first
  const rest = parts.rest.slice(0, random(parts.rest.length + 1))
  c.strict(2, joined(0, lengthened({ columns: parts.columns, rest }, pick([0, 7]), [9])))
}

fs.writeFileSync(path.join(folder, 'strict.stdin'), c.stream())
fs.writeFileSync(path.join(folder, 'strict.stdout'), c.output())
console.log(`strict: ${c.told()}`)
console.log(`of ${made.length} updates that Yjs made, ${whole} changed in each column: ${[...outcomes].sort().map(([what, n]) => `${what}: ${n}`).join('; ')}`)
