// The case stream through the binding: every case on updates, vectors, summaries and columns that are read, made with the real Yjs and by hand, held to the line
// that is expected of it (crates/cases/stdout). Passed over are cases that the binding cannot be asked: of numbers and of columns that are written (operations 1
// to 4 and 9 to 12), texts by themselves (30 to 32), with less room or fewer rows for a summary than it lends, a block's number over 2^53-1, and a listing of no bytes.
import assert from 'node:assert/strict'
import { readFileSync } from 'node:fs'
import { test } from 'node:test'
import { load, Refused } from '../index.js'
import { cases } from './stream.mjs'

const w = await load()

// ---- the lines

const hex = bytes => bytes.length === 0 ? '-' : Buffer.from(bytes).toString('hex')
const id = x => x === null ? '-' : `${x.client}:${x.clock}`
const part = x => x === null ? '-' : `${x.place}+${x.bytes}`
const row = b => [b.client, b.clock, b.length, b.kind, id(b.left), id(b.right), part(b.name), id(b.parent), part(b.key), part(b.part), part(b.mark), b.type ?? '-'].join('.')
const range = r => [r.client, r.clock, r.length].join('.')
const tables = ({ blocks, ranges }) => ['blocks', blocks.length, ...blocks.map(row), 'ranges', ranges.length, ...ranges.map(range)]
const sorted = s => [...[s.order, s.counts.map(c => `${c.client}:${c.taken}`), s.reaches.map(id), s.pending.map(p => `${p.client}>${p.waitsFor}:${p.reach}`)]
  .flatMap(words => [...words, ';']), ...tables(s)]

/** What a call comes to: its words, or its refusal; then the last words. */
const line = (call, ...last) => {
  try {
    return ['0', ...call(), ...last].join(' ')
  } catch (e) {
    if (!(e instanceof Refused)) throw e
    return [`${e.number}@${e.at ?? 0}`, ...last].join(' ')
  }
}

// ---- the operations: each gives a line, or null where it is passed over

const MOST_SUMMARY = 1050
const MOST_CLIENTS = 64
const reading = call => (form, rows, ranges, update) => line(() => tables(call(form, update, { rows, ranges })), 'zero')
const sortingBy = sort => (rule, form, rows, ranges, order, update, vector) => line(() => sorted(sort(rule, form, update, vector, { rows, ranges, order })), 'zero')
const sorting = sortingBy(w.sort)
const sortingHeld = sort => (form, rows, ranges, given, order, update, held) => line(() => {
  const s = sort(form, update, held, { rows, ranges, held: given, order })
  return [...[s.order, s.counts.map(c => `${c.client}:${c.taken}`), s.pending.map(p => `${p.client}>${p.waitsFor}:${p.clock}`), ['held', s.held.length, ...s.held.map(range)]]
    .flatMap(words => [...words, ';']), ...tables(s)]
}, 'zero')
/** A column's values as they are drawn; where the last stands without end, it stands for all that are asked for. */
const drawing = (kind, shown) => (column, times) => {
  const { draws, end, endless } = w.draws(kind, column, 0, times)
  draws.forEach((draw, n) => assert.ok(kind !== 'differences' || (draw.base === (draws[n - 1]?.value ?? 0) && draw.value === draw.base + draw.difference)))
  const values = draws.map(shown)
  while (endless && values.length < times) values.push(values.at(-1))
  return [end === null ? '0' : `${end.number}@${end.at}`, ...values].join(' ')
}
const operations = {
  5: drawing('numbers', draw => draw.value),
  6: drawing('differences', draw => draw.value),
  7: drawing('bytes', draw => draw.value),
  8: (column, times) => drawing('texts', ({ place, bytes }) => hex(column.subarray(place, place + bytes)))(column, times),
  13: vector => line(() => w.readStateVector(vector).map(id), 'zero'),
  14: reading(w.read),
  15: (form, n, update) => typeof n === 'bigint' ? null : line(() => [hex(w.content(form, update, n))]),
  16: (form, to, rows, ranges, out, update, vector) =>
    line(() => [hex(w.diff(form, update, vector, to, { rows, ranges, out })), ';', ...tables(w.read(form, update, { rows, ranges }))], 'zero'),
  17: (...asked) => sorting(28, ...asked),
  18: input => input.length === 0 ? null : line(() => [hex(Buffer.from(w.list(input[0], input.subarray(1))))], 'zero'),
  19: (form, room, update) => {
    const found = line(() => [hex(w.writeSummary(form, update))], 'zero')
    return room < MOST_SUMMARY && found.startsWith('0 ') ? null : found
  },
  20: (rows, summary) => rows < MOST_CLIENTS ? null : line(() => w.readSummary(summary).map(r => [r.client, r.first, r.end, r.blocks].join(':')), 'zero'),
  21: reading(w.readStrict),
  22: sortingHeld(w.sortHeld),
  25: sorting,
  26: sortingBy(w.sortSlowly),
  27: sortingHeld(w.sortHeldSlowly)
}

test('the case stream', t => {
  const lines = readFileSync(new URL('../../../crates/cases/stdout', import.meta.url), 'latin1').split('\n')
  const counts = new Map()
  let refused = 0
  let n = 0
  for (const [operation, given] of cases()) {
    const expected = lines[n++]
    const found = operations[operation]?.(...given) ?? null
    if (found === null) continue
    assert.ok(found === expected, `case ${n}, operation ${operation}:\n  ${found}\nand not\n  ${expected}`)
    refused += found.startsWith('0') ? 0 : 1
    counts.set(operation, (counts.get(operation) ?? 0) + 1)
  }
  assert.deepEqual(lines.slice(n), ['bad stream', ''])
  assert.ok(Object.keys(operations).every(operation => counts.get(Number(operation)) > 100))
  const all = [...counts.values()].reduce((a, b) => a + b)
  t.diagnostic(`${all} cases of ${n}, ${refused} of them refused: ${[...counts].sort(([a], [b]) => a - b).map(([k, n]) => `operation ${k}: ${n}`).join(', ')}`)
})
