// The bytes in hex, and the parts that form 2 is cut into.
'use strict'

let perRow = 16

const ofField = light => light === '' ? '' : ` of-${light}`

/** How each byte of a row looks: which field it is of, which part of which block it is, what the chosen block draws from it, whether it is chosen, and whether it
 * is blamed. */
const looksOf = (from, to) => {
  const looks = Array.from({ length: to - from }, (_, k) => ofField(coloursOf()[from + k] ?? ''))
  const over = (start, end, name) => {
    for (let at = Math.max(start, from); at < Math.min(end, to); at++) looks[at - from] += ` ${name}`
  }
  for (const { role, from: start, to: end } of now.parts) if (role === 'flag' || role === 'length') over(start, end, 'frame')
  if (now.part !== null) over(now.part.from, now.part.to, 'column')
  if (now.block !== null) {
    for (const { field, place, bytes } of explained(now.block)) if (place !== null) over(place, place + bytes, `drawn-${LIGHTS[field]}`)
    for (const [field, light] of ROLES) {
      const part = now.read.blocks[now.block][field]
      if (part !== null) over(part.place, part.place + part.bytes, light)
    }
  }
  const blamed = blame()?.at ?? null
  if (blamed !== null) over(blamed, blamed + 1, 'blamed')
  if (now.byte !== null) over(now.byte, now.byte + 1, 'here')
  return looks
}

const sign = byte => byte > 31 && byte < 127 ? String.fromCharCode(byte) : '·'
const placeDigits = () => now.bytes.length > 65536 ? 6 : 4

/** A row is a piece for each run of bytes that look alike. A byte is three letters wide, and one letter stands between two eights. */
const drawHex = (row, n) => {
  const from = n * perRow
  const to = Math.min(from + perRow, now.bytes.length)
  const looks = looksOf(from, from + perRow)
  const [cells, signs] = [[], []]
  for (let k = 0, end = 0; k < perRow; k = end) {
    for (end = k + 1; end < perRow && looks[end] === looks[k] && from + end !== to; end++);
    if (k === 8) cells.push(' ')
    const run = now.bytes.subarray(from + k, Math.min(from + end, to))
    if (run.length > 0) {
      cells.push(element('i', looks[k], Array.from(run, (byte, at) => `${at > 0 && (k + at) % 8 === 0 ? ' ' : ''}${hexByte(byte)}`).join(' ')))
      signs.push(element('i', looks[k], Array.from(run, sign).join('')))
    } else if (looks[k].includes('blamed')) cells.push(element('i', looks[k], '··')) // the place behind the last byte is there to be blamed
  }
  row.children[0].textContent = from.toString(16).padStart(placeDigits(), '0')
  row.children[1].replaceChildren(...cells)
  row.children[2].replaceChildren(...signs)
}
const hexRows = new Rows($('bytes'), {
  height: 22,
  make: () => element('div', 'row', element('span', 'place'), element('span', 'cells'), element('span', 'signs')),
  draw: drawHex
})
const showByte = place => hexRows.show(Math.floor(place / perRow))

/** How wide a letter of the bytes is. */
const letter = () => $('ruler').getBoundingClientRect().width / 10

/** As many bytes a row as there is room for, and as many rows as the bytes have: one more for the place behind them, where that is blamed and begins a row. */
const setHex = () => {
  const wide = (placeDigits() + 3 + 49 + 16) * letter() + 32
  perRow = wide <= $('bytes').clientWidth ? 16 : 8
  $('bytes').style.setProperty('--cells', perRow === 16 ? '49ch' : '24ch')
  hexRows.set(Math.ceil(Math.max(now.bytes.length, (blame()?.at ?? 0) + 1) / perRow))
}

/** The byte under a point of the window, or null. */
const byteUnder = (x, y) => {
  const row = document.elementFromPoint(x, y)?.closest('#bytes .row') ?? null
  if (row === null) return null
  const from = Number(row.dataset.n) * perRow
  for (const [cells, wide, gap] of [[row.children[1], 3, 1], [row.children[2], 1, 0]]) {
    const letters = (x - cells.getBoundingClientRect().left) / letter()
    // in the middle of the letter between two eights the second begins
    const k = letters < 8 * wide + gap / 2 ? Math.min(Math.floor(letters / wide), 7) : Math.max(8, Math.floor((letters - gap) / wide))
    if (k >= 0 && k < perRow && from + k < now.bytes.length) return from + k
  }
  return null
}
/** The middle of a byte in the window, where its row is drawn. */
const middleOf = place => {
  const { left, top, height } = hexRows.drawn.get(Math.floor(place / perRow)).children[1].getBoundingClientRect()
  const k = place % perRow
  return [left + (3 * k + 1.5 + (k > 7 ? 1 : 0)) * letter(), top + height / 2]
}

/** What is said of a byte: the one that is pointed at, or else the one that is chosen. */
const drawByte = (byte = now.byte) => {
  const { bytes, form, block } = now
  if (byte === null) return $('byte').replaceChildren(block === null ? 'Choose a byte.' : `Block ${block} is lit.`)
  const words = [element('b', 'mono', `byte ${byte}`), ` (0x${byte.toString(16)})`]
  if (byte < bytes.length) words.push(': ', element('b', 'mono', hexByte(bytes[byte])), ` is ${bytes[byte]}`)
  const number = blame()?.at === byte ? blame().number : 0
  if (form === 2 || byte >= bytes.length) words.push(`, ${columns.lies(form, bytes, byte, number)}`)
  const found = partsAt(byte)
  const lines = block === null ? [] : linesAt(block, byte).filter(line => line.place !== null && isIn(byte, line))
  if (lines.length > 0) {
    const told = lines.map(line => [line.field, [sumWords(line) || String(line.value), whichWords(line)].filter(words => words !== '').join(', ')].join(' '))
    words.push(`; of block ${block}: `, element('b', '', told.join('; ')))
  } else if (found.length > 0) {
    const { n, role } = found.find(part => part.n === block) ?? found[0]
    words.push(`; ${ROLES[role][2]} of block ${n}${found.length > 1 ? ` and of ${many(found.length - 1, 'other')}` : ''}`)
  }
  return $('byte').replaceChildren(...words)
}

/** The parts of form 2 as a table: where they begin, how many bytes they have, and what is drawn from them. */
const drawColumns = () => {
  $('columns').hidden = now.parts.length === 0
  const rows = now.parts.filter(part => part.role !== 'length').map(part => {
    const { name, kind, drawn, from, to } = part
    const shown = Array.from(now.bytes.subarray(from, Math.min(to, from + 5)), hexByte).join(' ')
    const row = element('tr', to === from ? 'none' : '',
      element('td', '', link('', name, () => choose({ part, byte: to === from ? null : from, block: now.block }))),
      element('td', 'number', String(from)),
      element('td', 'number', String(to - from)),
      element('td', 'mono', shown + (to - from > 5 ? ' …' : '')),
      element('td', 'note', kind),
      element('td', 'note', drawn))
    row.dataset.name = name
    return row
  })
  $('columns').replaceChildren(element('div', 'head', element('h2', '', 'Parts of the file')), tableOf(['part', ' from', ' bytes', '', 'of', 'drawn from it'], rows))
}

// ---- the draws from a column

/** No more draws are shown. */
const MOST_DRAWS = 200

/** The cells of a draw: where its run lies, by a link where it begins; then what it says. */
const drawCellsOf = {
  differences: ({ base, difference, value }) => [String(base), `${difference < 0 ? '−' : '+'}${Math.abs(difference)}`, element('b', '', String(value))],
  numbers: ({ value }) => [element('b', '', String(value))],
  bytes: ({ value }) => [String(value), element('b', '', hexByte(value))],
  texts: part => [element('b', '', values.text(now.bytes, part, 60))]
}
const DRAW_HEADS = { differences: [' base', ' difference', ' value'], numbers: [' value'], bytes: [' value', ' in hex'], texts: ['text'] }

/** Where a draw's bytes lie: those of its run, where it is the first of it; of a text its own. */
const drawnFrom = ({ from, to, nth, place, bytes }) => {
  if (nth > 0) return [element('span', 'note', 'of the same run')]
  const part = from === undefined ? { place, bytes } : { place: from, bytes: to - from }
  const shown = Array.from(now.bytes.subarray(part.place, part.place + Math.min(part.bytes, 8)), hexByte).join(' ')
  const go = () => choose({ part: now.part, byte: part.bytes === 0 ? null : part.place, block: now.block })
  return [link('mono', part.bytes === 0 ? `at ${part.place}` : `byte ${part.place}`, go), element('span', 'mono', `  ${shown}${part.bytes > 8 ? ' …' : ''}`)]
}

/** What follows the last draw that is shown. */
const drawEnd = ({ draws, end, endless }) => {
  if (endless) return 'The last value has no count: it stands without end.'
  if (end === null) return `The first ${MOST_DRAWS} are shown.`
  return end.number === 1 ? 'Then the column ends.' : `Then it is ${end.message}`
}

/** The values of the column that is chosen, as the library draws them, one after another: of differences each from the value before. */
const drawDraws = () => {
  const { part, bytes } = now
  $('draws').hidden = part === null || part.role !== 'column' || part.from === part.to
  if ($('draws').hidden) return
  const { name, kind, drawn, from, to } = part
  const found = library.draws(kind, bytes.subarray(0, to), from, MOST_DRAWS)
  const rows = found.draws.map((draw, n) => element('tr', '',
    element('td', 'number note', String(n + 1)),
    element('td', 'run', ...drawnFrom(draw)),
    ...drawCellsOf[kind](draw).map(words => element('td', kind === 'texts' ? 'mono' : 'number mono', words))))
  const title = element('h2', '', `Column ${name}`, element('small', '', ` ${kind}: ${drawn}`))
  $('draws').replaceChildren(element('div', 'head', title), tableOf([' draw', 'its bytes', ...DRAW_HEADS[kind]], rows), element('p', 'note padded', drawEnd(found)))
}
