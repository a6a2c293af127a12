// Summaries as document 02 (W-204) has them: bits as text, the most significant first. Written from the request, not from our code.
'use strict'
const model = require('./update-model.cjs')

const MOST = 64
const WIDTHS = [53, 31, 31, 16]
const inBits = (k, n) => BigInt(n).toString(2).padStart(k, '0')
const bytesOf = bits => {
  const filled = bits.padEnd(Math.ceil(bits.length / 8) * 8, '0')
  return (filled.match(/.{8}/g) ?? []).map(byte => parseInt(byte, 2))
}
const summaryOf = rows => bytesOf(inBits(4, 1) + inBits(7, rows.length) + rows.map(row => row.map((n, k) => inBits(WIDTHS[k], n)).join('')).join(''))

// Of blocks as reading gives them: client, first clock, last end and count of each client, highest client first.
const rowsOf = blocks => {
  const clients = [...new Set(blocks.map(b => BigInt(b.client)))].sort((a, b) => a < b ? 1 : -1)
  return clients.map(client => {
    const its = blocks.filter(b => BigInt(b.client) === client)
    const last = its[its.length - 1]
    return [client, BigInt(its[0].clock), BigInt(last.clock) + BigInt(last.length), BigInt(its.length)]
  })
}

const write = (form, update, room) => {
  const r = model.readUpdate(form, update)
  if (r.number !== 0) return { number: r.number, place: r.place }
  const rows = rowsOf(r.blocks)
  const bytes = summaryOf(rows)
  return bytes.length > room ? { number: 10, place: 0 } : { number: 0, bytes, rows }
}

// Version, count, then row by row its numbers and its place; all other faults last.
const read = (bytes, lent) => {
  const bits = bytes.map(b => inBits(8, b)).join('')
  let at = 0
  const no = number => ({ number, place: 0 })
  const take = k => {
    if (bits.length - at < k) return null
    at += k
    return BigInt('0b' + bits.slice(at - k, at))
  }
  const version = take(4)
  if (version === null) return no(1)
  if (version !== 1n) return no(16)
  const count = take(7)
  if (count === null) return no(1)
  if (count > BigInt(MOST)) return no(3)
  const rows = []
  while (rows.length < Number(count)) {
    const row = WIDTHS.map(take)
    if (row.includes(null)) return no(1)
    if (rows.length === lent) return no(8)
    rows.push(row)
  }
  const rest = bits.slice(at)
  const falling = rows.every(([client], k) => k === 0 || client < rows[k - 1][0])
  const fine = rows.every(([, first, end, blocks]) => blocks > 0n && first <= end)
  return falling && fine && rest.length < 8 && !rest.includes('1') ? { number: 0, rows } : no(17)
}

module.exports = { write, read, rowsOf, summaryOf, bytesOf, inBits, MOST }
