// Worked cases through the binding, each call once and more; refusals with number, words and place; what is lent.
import assert from 'node:assert/strict'
import { readFile } from 'node:fs/promises'
import { test } from 'node:test'
import { load, open, Refused, TYPES, WORDS } from '../index.js'
import { BOLD1, BOLD2, BOTH, bytes, C, D, hex, many, MARCH1, MARCH2, WITHOUT } from './cases.mjs'

const w = await load()
const refused = (call, number, at) => assert.throws(call, e => {
  assert.ok(e instanceof Refused && e instanceof Error && e.name === 'Refused')
  assert.deepEqual([e.number, e.at, e.words], [number, at, WORDS[number]])
  assert.equal(e.message, `refused ${number}${at === null ? '' : ` at byte ${at}`}: ${WORDS[number]}`)
  return true
})
const ONE = bytes('010501')

test('cases C and D are read', () => {
  const none = { left: null, right: null, parent: null, key: null, mark: null, type: null }
  const block = { client: 5, clock: 0, length: 2, kind: 'text', ...none }
  assert.deepEqual(w.read(1, C), { blocks: [{ ...block, name: { place: 7, bytes: 1 }, part: { place: 9, bytes: 2 } }], ranges: [] })
  assert.deepEqual(w.read(2, D), { blocks: [{ ...block, name: { place: 10, bytes: 1 }, part: { place: 11, bytes: 2 } }], ranges: [] })
  assert.deepEqual([w.readStrict(1, C), w.readStrict(2, D)], [w.read(1, C), w.read(2, D)])
})

test('the example of March hangs x, y and z on b, c and d, in both forms', () => {
  for (const [form, update] of [[1, MARCH1], [2, MARCH2]]) {
    const { blocks } = w.read(form, update)
    assert.deepEqual(blocks.map(b => b.left), [1, 2, 3].map(clock => ({ client: 9, clock })))
    assert.deepEqual(blocks.map(b => b.right), [{ client: 9, clock: 2 }, { client: 9, clock: 3 }, null])
    assert.deepEqual(blocks.map((_, n) => new TextDecoder().decode(w.content(form, update, n))), ['x', 'y', 'z'])
  }
})

test('marks, types, values, a GC and delete ranges are read', () => {
  const [bold1, bold2] = [w.read(1, BOLD1).blocks[0], w.read(2, BOLD2).blocks[0]]
  assert.deepEqual([bold1.kind, bold1.part, bold1.mark], ['format', { place: 14, bytes: 4 }, { place: 9, bytes: 4 }])
  assert.deepEqual([bold2.kind, bold2.part, bold2.mark], ['format', { place: 25, bytes: 1 }, { place: 12, bytes: 4 }])
  const nodes = w.read(1, bytes('010205000701017403017087050005017000')).blocks
  assert.deepEqual(nodes.map(b => [b.kind, b.type, TYPES[b.type], b.mark, b.part]),
    [['type', 3, 'xml element', { place: 10, bytes: 1 }, null], ['type', 5, 'xml hook', { place: 16, bytes: 1 }, null]])
  const gone = w.read(1, bytes('01010502000301070203020901'))
  assert.deepEqual([gone.blocks[0].kind, gone.blocks[0].length, gone.ranges], ['gc', 3, [{ client: 7, clock: 3, length: 2 }, { client: 7, clock: 9, length: 1 }]])
  const any = w.read(1, bytes('010105002801016d016b037d05760101617502787f7702c3a900')).blocks[0]
  assert.deepEqual([any.kind, any.length, any.key], ['any', 3, { place: 9, bytes: 1 }])
})

test('a content is a part of the update itself', () => {
  const hi = w.content(1, C, 0)
  assert.deepEqual([hi.buffer, hi.byteOffset, hex(hi)], [C.buffer, C.byteOffset + 9, '6869'])
  refused(() => w.content(1, C, 1), 11, null)
  refused(() => w.content(1, BOLD1, 0), 11, null)
})

test('listings', () => {
  assert.equal(w.list(1, C), 'update form 1 blocks 1 ranges 0\n5 0 2 text\nend\n')
  assert.equal(w.list(2, D), 'update form 2 blocks 1 ranges 0\n5 0 2 text\nend\n')
  assert.equal(w.list(1, bytes('0000')), 'empty\n')
  assert.equal(w.list(1, C.subarray(0, 11)), 'refused 1 at 11\n')
  assert.equal(w.list(1, new Uint8Array(65536)), 'refused 3 at 0\n')
  assert.equal(w.list(1, new Uint8Array(70000)), 'refused 3 at 0\n')
})

test('diffs and forms', () => {
  assert.equal(hex(w.diff(1, C, ONE)), '01010501840500016900')
  assert.equal(hex(w.diff(1, C, bytes('010502'))), '0000')
  assert.deepEqual([w.convert(1, C, 2), w.convert(2, D, 1), w.diff(1, C, bytes('00'), 2)], [D, C, D])
  assert.deepEqual([w.convert(2, MARCH2, 1), w.convert(1, MARCH1, 2)], [MARCH1, MARCH2])
  refused(() => w.convert(1, BOLD1, 2), 19, null)
  refused(() => w.diff(1, C, bytes('0205000500')), 4, null)
  refused(() => w.diff(1, bytes('010105000401017404f09f988000'), ONE), 9, null)
  refused(() => w.convert(1, C, 2, { out: 22 }), 10, null)
  assert.deepEqual(w.convert(1, C, 2, { out: 23 }), D)
})

test('sorts by held ids', () => {
  // W-206: client 9 has clocks 0 and 2 and a Skip between; client 5 hangs on (9, 1), which nobody has
  const update = Uint8Array.from(Buffer.from('020309000401017401610a010401017401620105008409010178' + '00', 'hex'))
  const none = w.sortHeld(1, update, Uint8Array.of(0))
  assert.deepEqual([none.order, none.pending, none.held], [[0, 1, 2], [{ client: 5, waitsFor: 9, clock: 1 }], []])
  const held = w.sortHeld(1, update, Uint8Array.of(1, 9, 2, 1, 1, 0, 1))
  assert.deepEqual([held.order, held.pending, held.held], [[0, 1, 2, 3], [], [{ client: 9, clock: 0, length: 2 }]])
  assert.throws(() => w.sortHeld(1, update, Uint8Array.of(1)), { number: 1 })
})

test('sorts by held ids slowly', () => {
  // W-211: the second block of 5 hangs on (9, 0), which is held at first; slow takes the lowest client first
  const update = Uint8Array.from(Buffer.from('02010900000102050000018109000100', 'hex'))
  const given = Uint8Array.of(1, 9, 1, 0, 1)
  const { order, ...slow } = w.sortHeldSlowly(1, update, given)
  const { order: first, ...quick } = w.sortHeld(1, update, given)
  assert.deepEqual([order, first], [[1, 2, 0], [0, 1, 2]])
  assert.deepEqual(slow, quick)
  assert.throws(() => w.sortHeldSlowly(1, update, Uint8Array.of(1)), { number: 1 })
})

test('sorts slowly', () => {
  // W-211: quick takes the highest client first, slow the lowest
  const update = Uint8Array.from(Buffer.from('0201090000010205000001000100', 'hex'))
  assert.deepEqual(w.sort(28, 1, update).order, [0, 1, 2])
  const { order, ...slow } = w.sortSlowly(28, 1, update)
  assert.deepEqual(order, [1, 2, 0])
  const { order: _, ...quick } = w.sort(28, 1, update)
  assert.deepEqual(slow, quick)
})

test('sorts', () => {
  const both = w.sort(28, 1, BOTH)
  assert.deepEqual([both.order, both.counts, both.pending], [[0, 1], [{ client: 9, taken: 1 }, { client: 5, taken: 1 }], []])
  assert.deepEqual(both.reaches, [{ client: 9, clock: 1 }, { client: 5, clock: 1 }])
  assert.deepEqual(both.blocks, w.read(1, BOTH).blocks)
  const without = w.sort(28, 1, WITHOUT)
  assert.deepEqual([without.order, without.pending], [[], [{ client: 5, waitsFor: 9, reach: 0 }]])
  assert.deepEqual(w.sort(28, 1, WITHOUT, bytes('010901')).order, [0])
  const late = bytes('0101050304010174016100')
  assert.deepEqual([w.sort(28, 1, late).order, w.sort(13, 1, late).pending], [[0], [{ client: 5, waitsFor: 5, reach: 0 }]])
  refused(() => w.sort(14, 1, late), 12, null)
  refused(() => w.sort(28, 1, C, bytes('41')), 3, null)
})

test('state vectors and summaries', () => {
  assert.deepEqual(w.readStateVector(bytes('0209040503')), [{ client: 9, clock: 4 }, { client: 5, clock: 3 }])
  refused(() => w.readStateVector(bytes('0205000500')), 4, null)
  const summary = w.writeSummary(1, C)
  assert.equal(hex(summary), '102000000000000500000000000000080004')
  assert.deepEqual(w.readSummary(summary), [{ client: 5, first: 0, end: 2, blocks: 1 }])
  refused(() => w.readSummary(bytes('20')), 16, null)
})

test('draws from a column, each with its run, its base and its difference', () => {
  // cases H and I, and the left clocks of the example of March, at bytes 7 and 8
  const differences = (column, at) => w.draws('differences', column, at).draws.map(d => [d.from, d.to, d.nth, d.base, d.difference, d.value])
  assert.deepEqual(differences(bytes('0301')), [[0, 2, 0, 0, 1, 1], [0, 2, 1, 1, 1, 2], [0, 2, 2, 2, 1, 3]])
  assert.deepEqual(differences(bytes('0a4100')), [[0, 1, 0, 0, 5, 5], [1, 3, 0, 5, -1, 4], [1, 3, 1, 4, -1, 3]])
  assert.deepEqual(differences(MARCH2.subarray(0, 9), 7), [[7, 9, 0, 0, 1, 1], [7, 9, 1, 1, 1, 2], [7, 9, 2, 2, 1, 3]])
  const { draws, end } = w.draws('numbers', MARCH2.subarray(0, 6), 3)
  assert.deepEqual([draws.map(d => d.value), end.number, end.at], [[5, 9, 9, 9, 9, 9], 1, 6])
  assert.deepEqual(w.draws('bytes', bytes('040100'), 0, 9), { draws: [{ value: 4, from: 0, to: 2, nth: 0 }, { value: 4, from: 0, to: 2, nth: 1 }, { value: 0, from: 2, to: 3, nth: 0 }], end: null, endless: true })
  assert.deepEqual(w.draws('texts', D.subarray(0, 15), 9).draws, [{ place: 10, bytes: 1 }, { place: 11, bytes: 2 }])
  assert.deepEqual(w.draws('texts', bytes('05'), 0).end.number, 1)
  assert.equal(w.draws('numbers', bytes('40ffffff7f'), 0, 1000).draws.length, 1000)
  assert.throws(() => w.draws('words', C), TypeError)
})

test('refusals of reading, by every call that reads', () => {
  const calls = (form, update) => [() => w.read(form, update), () => w.readStrict(form, update), () => w.content(form, update, 0), () => w.convert(form, update, 1),
    () => w.diff(form, update, bytes('00')), () => w.sort(28, form, update), () => w.sort(13, form, update), () => w.writeSummary(form, update)]
  for (const [form, update, number, at] of [
    [1, '010105808080808080808080', 2, 3],
    [1, '0101050004010174026869', 1, 11],
    [1, '020105000001010500000100', 4, 7],
    [1, '01010500020101740000', 5, 4],
    [1, '010105000401017402ff6100', 6, 9],
    [2, '0000010500000104060374686901030101000001010000', 7, 11],
    [1, '', 1, 0],
    [2, '', 1, 0],
    [1, '41', 3, 0],
    [1, '80808080808080808080', 2, 0],
    [3, '00', 12, null],
    [0, '', 12, null]
  ]) for (const call of calls(form, bytes(update))) refused(call, number, at)
  for (const call of calls(1, new Uint8Array(16777216))) refused(call, 3, null)
  refused(() => w.readStrict(1, Uint8Array.of(...C, 7)), 15, 12)
  refused(() => w.readStrict(2, Uint8Array.of(1, ...D.subarray(1))), 14, 0)
  assert.equal(w.read(1, Uint8Array.of(...C, 7)).blocks.length, 1)
})

test('limits of the caller', () => {
  refused(() => w.read(1, BOTH, { rows: 1 }), 8, 13)
  assert.equal(w.read(1, BOTH, { rows: 2, ranges: 0 }).blocks.length, 2)
  refused(() => w.read(1, bytes('00010501000100'), { ranges: 0 }), 8, 4)
  refused(() => w.sort(28, 1, BOTH, undefined, { order: 1 }), 8, null)
})

test('what is no update, form or number throws a TypeError', () => {
  for (const call of [() => w.read(1, [1, 2]), () => w.read(1), () => w.read('1', C), () => w.read(256, C), () => w.read(1.5, C), () => w.content(1, C, -1), () => w.diff(1, C),
    () => w.convert(1, C), () => w.sort(28, 1, C, 'vector'), () => w.readSummary('10'), () => w.read(1, C, { rows: -1 }), () => w.convert(1, C, 2, { out: 1.5 }),
    () => w.draws('numbers', C, -1), () => w.draws('numbers', C, 0, NaN)]) assert.throws(call, TypeError)
})

test('an update may be a part of a larger buffer, and stays as it was', () => {
  const larger = Uint8Array.of(9, 9, ...C, 9)
  assert.deepEqual(w.read(1, larger.subarray(2, 14)), w.read(1, C))
  assert.deepEqual(w.read(1, Buffer.from(C)), w.read(1, C))
  assert.deepEqual(larger, Uint8Array.of(9, 9, ...C, 9))
})

test('65,535 blocks in both forms, and a delete set of 100,000 ranges', () => {
  const update = many(65535)
  const one = w.read(1, update)
  assert.equal(one.blocks.length, 65535)
  assert.deepEqual([one.blocks[65534].clock, one.blocks[65534].left], [65534, { client: 5, clock: 65533 }])
  const two = w.convert(1, update, 2)
  assert.deepEqual(w.read(2, two).blocks.map(b => [b.clock, b.left]), one.blocks.map(b => [b.clock, b.left]))
  assert.deepEqual(w.convert(2, two, 1), update)
  assert.deepEqual(w.sort(13, 2, two).order, Array.from({ length: 65535 }, (_, n) => n))
  refused(() => w.read(1, many(65536)), 3, 1)
  // form 2: no blocks; client 5, 100,000 ranges, the first at 0, each other one behind a gap of one, all of length one (which is stored less one)
  const pairs = Array.from({ length: 100000 }, (_, n) => n === 0 ? [0, 0] : [1, 0]).flat()
  const deleted = w.read(2, Uint8Array.from([0, 0, 0, 0, 0, 0, 1, 0, 0, 0, 0, 0, 1, 5, 0xa0, 0x8d, 0x06, ...pairs]))
  assert.equal(deleted.ranges.length, 100000)
  assert.deepEqual(deleted.ranges[99999], { client: 5, clock: 199998, length: 1 })
})

test('nothing leaks: the memory stays as large as the largest call made it', async () => {
  const wasm = await readFile(new URL('../../../web/wairokabi.wasm', import.meta.url))
  const { instantiate } = WebAssembly
  let memory
  WebAssembly.instantiate = async (...words) => {
    const made = await instantiate(...words)
    memory = made.instance.exports.memory
    return made
  }
  const own = await open(wasm)
  WebAssembly.instantiate = instantiate
  const update = many(3000)
  own.read(1, update)
  own.sort(28, 1, update)
  own.convert(1, update, 2)
  own.list(1, C)
  const size = memory.buffer.byteLength
  for (let n = 0; n < 300; n++) {
    own.read(1, update)
    own.sort(28, 1, update)
    own.convert(1, update, 2)
    own.list(1, C)
    assert.throws(() => own.read(1, update.subarray(0, 1000)))
  }
  assert.equal(memory.buffer.byteLength, size)
  // and what an earlier call left there changes no answer
  assert.deepEqual(own.read(2, D), w.read(2, D))
})

test('a library may be opened from a module, or from an address', async () => {
  const wasm = new URL('../../../web/wairokabi.wasm', import.meta.url)
  const module = await WebAssembly.compile(await readFile(wasm))
  assert.deepEqual(WebAssembly.Module.imports(module), [])
  assert.deepEqual((await open(module)).read(1, C), w.read(1, C))
  assert.deepEqual((await load(wasm)).read(1, C), w.read(1, C))
})
