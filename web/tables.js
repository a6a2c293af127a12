// The verdict, the blocks and delete ranges as tables, the block that is chosen, and what sorting comes to.
'use strict'

// ---- the verdict

const byteLink = place => link('mono', `byte ${place}`, () => choose({ byte: place, block: now.block }))

const refusalWords = ({ number, at, words }) => {
  const where = at === null ? [] : [' at ', byteLink(at), `, ${columns.lies(now.form, now.bytes, at, number)}`]
  return element('span', '', `refused ${number}`, ...where, `: ${words}`)
}

/** What the other form comes to, in a few words. */
const otherWords = ({ form, read, refused, strict }) => {
  const short = ({ number, at }) => `refused ${number}${at === null ? '' : ` at byte ${at}`}`
  if (read === null) return `In form ${form}: ${short(refused)}`
  const strictly = strict === null ? '' : `, strictly ${short(strict)}`
  return `In form ${form}: ${many(read.blocks.length, 'block')}, ${many(read.ranges.length, 'delete range')}${strictly}`
}

const drawVerdict = () => {
  const { name, note, bytes, form, read, refused, strict, other } = now
  const lines = [element('p', '', element('b', '', name), ` ${many(bytes.length, 'byte')}`)]
  if (read === null) lines.push(element('p', 'why', refusalWords(refused)))
  else {
    const clients = new Set(read.blocks.map(block => block.client)).size
    lines.push(element('p', '', `${many(read.blocks.length, 'block')} of ${many(clients, 'client')}, ${many(read.ranges.length, 'delete range')}`))
    if (strict === null) lines.push(element('p', 'fit', 'Fit for the archive: no byte of it stays unread.'))
    else lines.push(element('p', 'unfit', 'Not fit for the archive: ', refusalWords(strict)))
  }
  if (other !== null) lines.push(element('p', 'other', link('', otherWords(other), () => setForm(String(other.form)))))
  if (note !== '') lines.push(element('p', 'note', note))
  const title = element('h2', '', read === null ? 'Refused' : 'Reads', element('small', '', ` in form ${form}`))
  $('verdict').className = `card verdict ${read === null ? 'bad' : strict === null ? 'good' : 'fair'}`
  $('verdict').replaceChildren(title, element('div', 'lines', ...lines))
}

// ---- the blocks and the delete ranges

const parentWords = block => {
  const parent = block.name === null ? idWords(block.parent) : values.text(now.bytes, block.name, 24)
  return block.key === null ? parent : `${parent} ${values.text(now.bytes, block.key, 24)}`
}

/** The columns of a table: a name, a look, and the words of a cell. */
const BLOCK_COLUMNS = [
  ['#', 'number', (block, n) => String(n)],
  ['client', 'number', block => String(block.client)],
  ['clock', 'number', block => String(block.clock)],
  ['length', 'number', block => String(block.length)],
  ['kind', '', block => block.kind],
  ['holds', 'holds', block => values.held(now.form, now.bytes, block, wairokabi.TYPES, 60)],
  ['left', 'id', block => idWords(block.left)],
  ['right', 'id', block => idWords(block.right)],
  ['parent', 'id', parentWords]
]
const RANGE_COLUMNS = [
  ['client', 'number', range => String(range.client)],
  ['clock', 'number', range => String(range.clock)],
  ['length', 'number', range => String(range.length)],
  ['ids', 'holds', idsWords]
]

const cellsOf = (table, role, words) => {
  const row = element('div', 'row', ...table.map(column => {
    const cell = element('span', column[1], words(column))
    cell.setAttribute('role', role)
    return cell
  }))
  row.setAttribute('role', 'row')
  return row
}
const headOf = table => {
  const head = cellsOf(table, 'columnheader', ([name]) => name)
  head.classList.add('head')
  return head
}
const drawCells = (row, table, of, n) => {
  table.forEach(([, , words], k) => {
    const text = words(of, n)
    row.children[k].textContent = text
    row.children[k].title = text.length > 18 ? text : ''
  })
}

const blockRows = new Rows($('blocks'), {
  height: 28,
  head: headOf(BLOCK_COLUMNS),
  make: () => cellsOf(BLOCK_COLUMNS, 'gridcell', () => ''),
  draw: (row, n) => {
    const block = now.read.blocks[n]
    drawCells(row, BLOCK_COLUMNS, block, n)
    row.id = `block-${n}`
    row.className = `row kind-${block.kind}${n > 0 && now.read.blocks[n - 1].client !== block.client ? ' section' : ''}`
    row.setAttribute('aria-selected', String(n === now.block))
  }
})
const rangeRows = new Rows($('ranges'), {
  height: 28,
  head: headOf(RANGE_COLUMNS),
  make: () => cellsOf(RANGE_COLUMNS, 'gridcell', () => ''),
  draw: (row, n) => drawCells(row, RANGE_COLUMNS, now.read.ranges[n], n)
})

/** A column is as wide as what is longest in it, so that no row need be measured. */
const setWidths = blocks => {
  const widest = of => blocks.reduce((most, block) => Math.max(most, of(block)), 0)
  const digits = field => String(widest(block => block[field])).length
  const ids = field => widest(block => idWords(block[field]).length)
  const letters = {
    n: Math.max(2, String(blocks.length).length),
    client: Math.max(6, digits('client')),
    clock: Math.max(5, digits('clock')),
    length: Math.max(6, digits('length')),
    left: Math.max(7, ids('left')),
    right: Math.max(7, ids('right')),
    parent: Math.min(Math.max(8, widest(block => parentWords(block).length)), 22)
  }
  let all = 0
  for (const [name, count] of Object.entries(letters)) {
    all += count + 0.6
    $('blocks').style.setProperty(`--${name}`, `${count + 0.6}ch`)
  }
  $('blocks').style.setProperty('--all', `${all}ch`)
  leastLetters = all + HOLDS
  fitPanes()
}

/** The letters that the columns of kind and of what is held take at least, as page.css has them; and all columns. */
const HOLDS = 8.5 + 16
let leastLetters = 0

/** Where the blocks need more than their share of the window, the bytes stand eight in a row beside them. */
const fitPanes = () => {
  const least = leastLetters * letter() + 8 * 14 + 32
  $('panes').classList.toggle('wide', least > ($('panes').clientWidth - 14) * 1.25 / 2.25)
}

// ---- the chosen block

const spanWords = ({ place, bytes }) => {
  if (bytes === 0) return `no bytes, at ${place}`
  return bytes === 1 ? `byte ${place}` : `bytes ${place} to ${place + bytes - 1}`
}
/** Where a part lies, as a chip in the colour that it is lit in, and its first bytes. */
const partChip = (part, light) => {
  const shown = Array.from(now.bytes.subarray(part.place, part.place + Math.min(part.bytes, 12)), hexByte).join(' ')
  return [link(`chip ${light}`, spanWords(part), () => choose({ byte: part.place, block: now.block })), element('code', '', ` ${shown}${part.bytes > 12 ? ' …' : ''}`)]
}

const drawBlock = () => {
  const block = now.block === null ? undefined : now.read?.blocks[now.block]
  $('block').hidden = block === undefined
  if (block === undefined) return
  const list = element('dl')
  const say = (what, ...words) => list.append(element('dt', '', what), element('dd', '', ...words))
  const mono = words => element('span', 'mono', words)
  const named = (what, part, light) => part !== null && say(what, mono(`${values.text(now.bytes, part, 200)} `), ...partChip(part, light))
  const held = values.held(now.form, now.bytes, block, wairokabi.TYPES, 600)
  if (held !== '') say('holds', element('span', 'mono held', held))
  if (block.part !== null) say('stored part', ...partChip(block.part, 'stored'))
  named(block.kind === 'type' ? 'node name' : 'mark', block.mark, 'mark')
  say('ids', mono(idsWords(block)))
  for (const side of ['left', 'right', 'parent']) if (block[side] !== null) say(`${side} id`, mono(idWords(block[side])))
  named('parent name', block.name, 'name')
  named('key', block.key, 'key')
  const told = ` ${block.kind} of client ${block.client}, clock ${block.clock}, length ${block.length}`
  $('block').replaceChildren(element('h2', '', `Block ${now.block}`, element('small', '', told)), list, ...explanation(explained(now.block)))
}

const ORDINALS = ['first', 'second', 'third', 'fourth', 'fifth', 'sixth', 'seventh', 'eighth', 'ninth', 'tenth']
const ordinal = n => ORDINALS[n] ?? `${n + 1}${n % 100 >= 10 && n % 100 <= 12 ? 'th' : ['st', 'nd', 'rd'][n % 10] ?? 'th'}`

/** Which of its run's values a draw is: `third of 3`. */
const whichWords = ({ nth, of, endless }) => endless ? 'without end' : nth === null ? '' : `${ordinal(nth)} of ${of}`
/** How a value comes from its base: `2 + 1 = 3`. */
const sumWords = ({ base, difference, value }) => base === null ? '' : `${base} ${difference < 0 ? '−' : '+'} ${Math.abs(difference)} = ${value}`

/** Where a line's bytes lie, as chips in the colour that they are lit in. */
const fromChips = line => {
  const { field, place, bytes, part } = line
  if (place === null) return ['the first clock and the lengths before it']
  const own = bytes === 0 ? [] : [...partChip({ place, bytes }, `drawn-${LIGHTS[field]}`), ...[whichWords(line)].filter(words => words !== '').map(words => `, ${words}`)]
  if (part === null || (part.bytes === 0 && own.length > 0)) return own
  return [...own, ...(own.length > 0 ? ['; '] : []), ...partChip(part, LIGHTS[field])]
}

/** The draws of a block as a table, as the library explains them; the one that has the chosen byte stands out. */
const explanation = lines => {
  if (lines.length === 0) return []
  const rows = lines.map(line => {
    const here = now.byte !== null && spansOf(line).some(span => isIn(now.byte, span))
    return element('tr', here ? 'chosen' : '',
      element('td', '', line.field),
      element('td', 'number', String(line.value)),
      element('td', 'from', ...fromChips(line)),
      element('td', 'sum', sumWords(line)))
  })
  return [element('h3', '', 'Where its numbers come from'), tableOf(['field', ' value', 'from', 'base and difference'], rows)]
}

/** A table of few rows; a name that begins with a blank is of a column of numbers. */
const tableOf = (names, rows) => {
  const head = element('tr', '', ...names.map(name => element('th', name.startsWith(' ') ? 'number' : '', name.trim())))
  return element('div', 'scroll', element('table', '', element('thead', '', head), element('tbody', '', ...rows)))
}

// ---- sorting

/** Numbers that follow each other as from and to, so many pairs at most. */
const runsOf = (numbers, most) => {
  const runs = []
  for (const n of numbers) {
    if (runs.length > 0 && runs.at(-1)[1] === n - 1) runs.at(-1)[1] = n
    else runs.push([n, n])
    if (runs.length > most) break
  }
  return runs.map(([from, to], k) => k === most ? '…' : from === to ? `${from}` : `${from} to ${to}`).join(', ')
}

/** A row for each client that has blocks or stands in the vector. */
const clientRows = ({ blocks, counts, reaches, pending }) => {
  const [taken, waits, all] = [new Map(counts.map(c => [c.client, c.taken])), new Map(pending.map(p => [p.client, p])), new Map()]
  for (const { client } of blocks) all.set(client, (all.get(client) ?? 0) + 1)
  return reaches.map(({ client, clock }) => {
    const wait = waits.get(client)
    const numbers = [client, all.get(client) ?? 0, taken.get(client) ?? 0, clock].map(n => element('td', 'number', String(n)))
    if (wait === undefined) return element('tr', '', ...numbers, element('td'))
    const whom = wait.waitsFor === client ? 'its own ids' : `client ${wait.waitsFor}`
    return element('tr', 'waits', ...numbers, element('td', '', `waits for ${whom}, known up to ${wait.reach}`))
  })
}

const RULES = { 28: 'By rule 28 a block waits for its dependencies on other clients.', 13: 'By rule 13 a block waits also until its own client reaches its clock.' }

const drawSorting = () => {
  if (now.tab !== 'sorting' || now.read === null) return $('sorted').replaceChildren()
  const vector = given.ofHex($('vector').value)
  $('vector').setAttribute('aria-invalid', String(vector === null))
  if (vector === null) return $('sorted').replaceChildren(element('p', 'unfit', 'The state vector is not pairs of hex digits.'))
  const rule = Number(document.querySelector('input[name=rule]:checked').value)
  const { answer: sorted, refused } = attempt(() => library.sort(rule, now.form, now.bytes, vector))
  if (refused !== null) return $('sorted').replaceChildren(element('p', 'unfit', `The state vector is ${refused.message}`))
  const { order, blocks, pending } = sorted
  const waiting = pending.length === 0 ? 'none waits' : `${many(pending.length, 'client')} ${pending.length === 1 ? 'waits' : 'wait'}`
  return $('sorted').replaceChildren(
    element('p', pending.length === 0 ? 'fit' : 'unfit', `${order.length.toLocaleString('en')} of ${many(blocks.length, 'block')} can be applied, ${waiting}.`),
    tableOf([' client', ' blocks', ' taken', ' reaches', ''], clientRows(sorted)),
    element('p', 'note', RULES[rule]),
    ...(order.length === 0 ? [] : [element('p', '', 'In this order: ', element('span', 'mono', `blocks ${runsOf(order, 60)}`))]))
}
