// Where the parts of a form 2 update lie, for the page's words and colours alone: the library cuts it by itself. Of a damaged update as many parts as its lengths
// lead to.
'use strict'

const columns = (() => {
  /** The columns in their order, what they are, and what is drawn from them (docs/FORMAT.md, section 4). */
  const COLUMNS = [
    ['key', 'differences', 'numbers of keys, node names'],
    ['client', 'numbers', 'clients of sections and ids'],
    ['left clock', 'differences', 'clocks of left and parent ids'],
    ['right clock', 'differences', 'clocks of right ids'],
    ['info', 'bytes', 'info bytes'],
    ['text', 'texts', 'names, keys, texts'],
    ['parent info', 'bytes', 'parent infos'],
    ['type', 'numbers', 'numbers of types'],
    ['length', 'numbers', 'lengths of GCs, deletes, lists']
  ]

  /** The unsigned number at a place, and the place after it; null where the bytes end or a ninth byte says more. */
  const numberAt = (update, at) => {
    let value = 0
    for (let k = 0; k < 9 && at + k < update.length; k++) {
      value += update[at + k] % 128 * 2 ** (7 * k)
      if (update[at + k] < 128) return [value, at + k + 1]
    }
    return null
  }

  /** The parts in their order, each from where the one before ends: the flag, nine times a length and so many bytes, the rest. The last is the length that does not
   * end, or the column that should have more bytes than are left, if there is one. */
  const parts = update => {
    const end = update.length
    if (end === 0) return []
    const found = [{ role: 'flag', name: 'flag', kind: 'a byte', drawn: 'nothing; it is 0', from: 0, to: 1 }]
    let at = 1
    for (const [name, kind, drawn] of COLUMNS) {
      const read = numberAt(update, at)
      if (read === null) return [...found, { role: 'length', name, from: at, to: end }]
      const [size, from] = read
      found.push({ role: 'length', name, from: at, to: from })
      at = Math.min(from + size, end)
      found.push({ role: 'column', name, kind, drawn, from, to: at })
      if (from + size > end) return found
    }
    return [...found, { role: 'rest', name: 'the rest', kind: 'in line', drawn: 'counts, values, delete set', from: at, to: end }]
  }

  /** Whether all nine columns could be cut. */
  const whole = update => parts(update).at(-1)?.role === 'rest'

  const words = ({ role, name }) => ({ flag: 'the flag', length: `in the length of the column ${name}`, column: `in the column ${name}`, rest: 'in the rest, behind the columns' })[role]

  /** What has a place, in words, as the command has them; `number` is that of a refusal, or 0. */
  const lies = (form, update, place, number = 0) => {
    if (place >= update.length) return 'the end of the file'
    if (form !== 2) return [4, 5, 6].includes(number) ? 'in the blocks' : 'in the update'
    const all = parts(update)
    // a column that ended early is blamed behind its last byte, where the next part begins
    const ended = number === 1 ? all.find(part => part.role === 'column' && part.to === place) : undefined
    if (ended !== undefined) return `the end of the column ${ended.name}`
    return words(all.find(part => part.from <= place && place < part.to))
  }

  return { parts, whole, lies }
})()
