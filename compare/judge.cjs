// The comparisons themselves. Each takes what was asked and the answers, and says with `same`, `known` or `unknown` what came of it.
'use strict'
const { first } = require('../tools/cases/stream.cjs')
const { ourRecord, meant, theirRecord, theirIds, kept, compareVector } = require('../tools/cases/yjs.cjs')
const model = require('../tools/cases/update-model.cjs')
const columnModel = require('../tools/cases/model.cjs')
const diffModel = require('../tools/cases/diff-model.cjs')
const sortModel = require('../tools/cases/sort-model.cjs')
const yjsDiffs = require('../tools/cases/yjs-diffs.cjs')
const yjsSorts = require('../tools/cases/yjs-sorts.cjs')
const watched = require('./watched.cjs')
const { classOf } = require('./known.cjs')

const MOST = 64 // values of a column, as the other programs have it
const list = text => text === '' ? [] : text.split(',')
const bracketed = bytes => `<${Buffer.from(bytes).toString('hex')}>`
const bytesOf = text => [...Buffer.from(text.slice(1, -1), 'hex')]
// The number of a line's refusal, without its place: that is held against the model's, and the others have none.
const numberOf = refusal => Number(refusal.split('@')[0])

// ---- the model's answers, in the words of compare/ours.c

const groups = all => all.map(words => words.join(' ')).join(',')
const readLine = (update, r) => r.number !== 0 ? `${first(r)}||`
  : `0|${r.blocks.map(ourRecord(update)).join(',')}|${groups(r.ranges.map(d => [d.client, d.clock, d.length]))}`
const diffLine = r => r.number !== 0 ? `${first(r)}|<>` : `0|${bracketed(r.bytes)}`
const sortLine = r => r.number !== 0 ? `${first(r)}||||` : `0|${r.order.join(',')}|${groups(r.taken)}|${groups(r.reaches)}|${groups(r.pending)}`
const vectorLine = r => r.number !== 0 ? `${first(r)}|` : `0|${groups(r.entries.map(e => [e.client, e.clock]))}`
const drawn = (kind, column) => {
  if (kind < 3) return columnModel.draws([columnModel.numbers, columnModel.differences, columnModel.bytes][kind](column), BigInt(MOST))
  const opened = columnModel.texts(column)
  return opened.number !== 0 ? { ...opened, what: 'text opened', values: [] } : columnModel.draws(opened.draw, BigInt(MOST))
}
const valueWord = (kind, v) => kind === 3 ? bracketed(v) : `${v}`
const columnLine = (kind, r) => `${r.values.map(v => valueWord(kind, v)).join(',')}|${r.number === 0 ? 'more' : first(r)}`

// ---- what is said

const begin = () => {
  const counts = {}
  const unknown = []
  const count = (...words) => {
    const key = words.join('|')
    counts[key] = (counts[key] ?? 0) + 1
  }
  const known = (side, work, x, why) => {
    const name = classOf(side, x)
    if (name === null) unknown.push({ side, work, why, ...x })
    else count('known', side, name, work)
    return name !== null
  }
  // Ours against the model of documents 01 and 02, a refusal's place too: never a known difference. `r` is the model's answer.
  const ours = (work, x, line, expected, r) => {
    if (line !== expected) return unknown.push({ side: 'ours', work, why: `ours ${line.slice(0, 300)}, by documents 01 and 02 ${expected.slice(0, 300)}`, ...x })
    count('model', work)
    if (r.number !== 0) count('places', work, r.place === 0 ? 'at 0' : 'elsewhere')
  }

  // ---- reading

  const highestFirst = records => records.map((r, k) => [BigInt(r.split(' ')[0]), k, r]).sort(([a, j], [b, k]) => a > b ? -1 : a < b ? 1 : j - k).map(([, , r]) => r)
  // Deleted ids as ranges in normal form, from ranges in any.
  const ids = ranges => {
    const clients = new Map()
    for (const [client, clock, len] of ranges.map(r => r.split(' ').map(Number))) {
      if (len === 0) continue
      if (!clients.has(client)) clients.set(client, [])
      clients.get(client).push({ clock, len })
    }
    return theirIds({ clients })
  }

  const readYjs = (asked, line) => {
    const [number, records, ranges] = line.split('|')
    const x = { ...asked, number: numberOf(number) }
    const seen = watched.read(x.form, x.bytes)
    const y = { ...x, got: seen.got !== null ? 'read' : seen.stopped ? 'stopped' : 'error', past: seen.past, textPast: seen.textPast }
    const outcome = what => count('read', 'Yjs', x.form, x.made, what)
    if (x.number !== 0 && y.got === 'error') return outcome('refused by both')
    outcome(x.number === 0 && y.got === 'read' ? 'read by both' : x.number === 0 ? 'read by ours only' : y.got === 'read' ? 'read by Yjs only' : 'not finished by Yjs')
    // Values by what they mean; some of them JavaScript does not have.
    const ours = x.number === 0 ? list(records).map(meant(x.form)) : []
    y.beyond = ours.includes(null)
    if (x.number === 0 && y.got === 'read' && !y.beyond && !(x.form === 2 && x.bytes[0] > 127)) {
      const structs = seen.got.structs.filter(kept)
      y.emptyRange = [...seen.got.ds.clients.values()].some(all => all.some(d => d.len === 0))
      const same = ours.join(',') === structs.map(theirRecord).join(',') && ranges === theirIds(seen.got.ds).join(',')
      y.dropped = same && structs.length !== seen.got.structs.length
      if (same) count('same', 'Yjs', 'read')
      if (same && !y.dropped) return y
    }
    known('Yjs', 'read', y, 'reading')
    return y
  }

  const readYrs = (asked, checked, line, theirs) => {
    const [number, records, ranges] = line.split('|')
    const x = { ...asked, number: numberOf(number) }
    const [got, theirRecords, theirRanges] = theirs.split('|')
    const y = { ...x, checked, got: got === '0' ? 'read' : got }
    const build = checked ? 'yrs checked' : 'yrs release'
    const outcome = what => count('read', build, x.form, x.made, what)
    if (x.number !== 0 && y.got === 'error') return outcome('refused by both')
    outcome(x.number === 0 && y.got === 'read' ? 'read by both' : x.number === 0 ? 'read by ours only' : y.got === 'read' ? 'read by Rust only' : y.got === 'panic' ? 'panic' : 'no memory')
    if (x.number === 0 && y.got === 'read') {
      const sameRecords = highestFirst(list(records)).join(',') === theirRecords
      const sameIds = ids(list(theirRanges)).join(',') === ranges
      if (sameRecords && sameIds) return count('same', build, 'read')
      if (!sameRecords) y.twice = false
    }
    known('yrs', build, y, 'reading')
  }

  // ---- diffs

  // Of the model's answer, `r`, only what is refused is used.
  const diffYjs = (x, line, r) => {
    const [refusal, bytes] = line.split('|')
    const number = numberOf(refusal)
    if (![0, 9, 13, 19].includes(number) && r.what !== 'keys written') return count('diff', 'Yjs', 'refused by ours')
    try {
      yjsDiffs.compare(x.form, x.to, x.bytes, x.vector, { number, what: r.what, bytes: bytesOf(bytes) })
      count('diff', 'Yjs', 'compared')
    } catch (e) {
      unknown.push({ side: 'Yjs', work: 'diff', why: e.message, ...x })
    }
  }
  // `theirs` is the Rust's diff; `again` what the Rust reads from ours and from its own.
  const diffYrs = (x, checked, line, theirs, again) => {
    const number = numberOf(line.split('|')[0])
    const build = checked ? 'yrs checked' : 'yrs release'
    const [got] = theirs.split('|')
    const y = { ...x, number, checked, got: got === '0' ? 'read' : got }
    if (number !== 0 && y.got === 'error') return count('diff', build, 'refused by both')
    if (number === 0 && y.got === 'read') {
      const [one, two] = again.map(a => a.split('|'))
      const told = ([n, records, ranges]) => [n, records, ids(list(ranges ?? ''))].join('|')
      if (one[0] === '0' && told(one) === told(two)) return count('same', build, 'diff')
      if (one[1] !== two[1]) y.twice = false
    }
    known('yrs diffs', build, y, again === null ? theirs : again.join(' '))
  }

  // ---- sorts

  // By rule 13: the library's own answer is held against what Yjs takes, keeps back and misses; of the model's, `r`, only the blocks are used.
  const sortYjs = (x, line, r, across) => {
    const [refusal, order, taken, reaches, pending] = line.split('|')
    if (numberOf(refusal) !== 0) return count('sort', 'Yjs', 'refused by ours')
    const words = text => list(text).map(g => g.split(' ').map(BigInt))
    const ours = { ...r, order: list(order).map(Number), taken: words(taken), reaches: words(reaches), pending: words(pending) }
    const garbage = () => yjsSorts.compare(x.form, x.bytes, x.vector, ours, across)
    try {
      if (x.doc === undefined) garbage()
      else {
        try {
          yjsSorts.compareDocument(x.form, x.bytes, x.vector, ours, across, x.doc())
        } catch (e) {
          if (!e.message.includes('an id that is not there')) throw e
          garbage()
        }
      }
      count('sort', 'Yjs', 'compared')
    } catch (e) {
      unknown.push({ side: 'Yjs', work: 'sort', why: e.message, ...x })
    }
  }
  // Where no client's blocks have a gap or begin above its reach: the same division.
  const ungapped = r => {
    const reach = new Map(r.entries.map(e => [e.client, e.clock]))
    const first = new Map()
    for (const b of r.read.blocks) if (!first.has(b.client)) first.set(b.client, b.clock)
    return r.read.blocks.every(b => b.kind !== 'skip' && b.length > 0n) && [...first].every(([client, clock]) => clock <= (reach.get(client) ?? 0n))
  }
  const sortYrs = (x, checked, line, r, theirs) => {
    const build = checked ? 'yrs checked' : 'yrs release'
    if (r.number !== 0) return
    if (!ungapped(r)) return count('sort', build, 'a gap: outside the domain')
    const [got, taken, left, theirReaches] = theirs.split('|')
    const [, order, , reaches] = line.split('|')
    const y = { ...x, number: 0, checked, got: got === '0' ? 'read' : got, hung: r.hung }
    if (y.got === 'read') {
      const records = r.read.blocks.map(ourRecord(x.bytes))
      const numbers = new Set(list(order).map(Number))
      const split = take => records.filter((_, n) => numbers.has(n) === take).sort().join(',')
      const reached = list(reaches).filter(w => !w.endsWith(' 0')).join(',')
      if (split(true) === list(taken).sort().join(',') && split(false) === list(left).sort().join(',') && reached === theirReaches) return count('same', build, 'sort')
    }
    known('yrs sorts', build, y, theirs)
  }

  // ---- columns

  const column = (side, work, x, line, values, end) => {
    const [words, refusal] = line.split('|')
    const ours = list(words)
    const fail = why => unknown.push({ side, work, why, ...x })
    if (values.slice(0, ours.length).join(',') !== words) return fail(`${values.slice(0, 9)}, ours ${line.slice(0, 99)}`)
    if (refusal === 'more') return end === 'more' ? count('same', work, 'column') : fail(`ends with ${end}, ours goes on`)
    const got = values.length > ours.length ? 'read' : end
    if (got === 'error') return count('same', work, 'column')
    known(side, work, { ...x, number: numberOf(refusal), got }, 'a column')
  }

  // ---- state vectors: what ours reads, Yjs reads; what ends early for ours does so for Yjs

  const vectorYjs = (x, line) => {
    const [refusal, entries] = line.split('|')
    const number = numberOf(refusal)
    try {
      compareVector(x.bytes, { number, entries: list(entries).map(e => e.split(' ').map(BigInt)).map(([client, clock]) => ({ client, clock })) })
      count('vector', 'Yjs', [0, 1].includes(number) ? 'compared' : "a limit of ours: not compared")
    } catch (e) {
      unknown.push({ side: 'Yjs', work: 'vector', why: e.message, ...x })
    }
  }

  return { counts, unknown, count, ours, vectorYjs, readYjs, readYrs, diffYjs, diffYrs, sortYjs, sortYrs, column }
}

module.exports = {
  begin, list, bytesOf, numberOf, MOST, drawn, readLine, diffLine, sortLine, columnLine, vectorLine,
  readUpdate: model.readUpdate, readVector: model.readVector, diff: diffModel.diff, sort: sortModel.sort,
  lib0Column: (kind, bytes) => {
    const { values, end } = watched.column(kind, bytes, MOST)
    return { values: values.map(v => valueWord(kind, v)), end }
  },
  told: () => `${yjsDiffs.told()}|${yjsSorts.told()}`
}
