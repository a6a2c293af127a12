// What the page is given: bytes spelled in hex or base64, and the examples.
'use strict'

const given = (() => {
  const ofHex = text => {
    const digits = text.replace(/^\s*hex:/i, '').replace(/0x/gi, ' ').replace(/[\s,:;_-]+/g, '')
    if (digits.length % 2 !== 0 || /[^0-9a-f]/i.test(digits)) return null
    return Uint8Array.from({ length: digits.length / 2 }, (_, n) => parseInt(digits.slice(2 * n, 2 * n + 2), 16))
  }

  /** Also as URLs spell it, with or without its filling, and behind `data:..;base64,`. */
  const ofBase64 = text => {
    const digits = text.replace(/^\s*data:[^,]*;base64,/i, '').replace(/\s+/g, '').replace(/-/g, '+').replace(/_/g, '/').replace(/=+$/, '')
    if (digits.length % 4 === 1 || /[^0-9a-z+/]/i.test(digits)) return null
    return Uint8Array.from(atob(digits), c => c.charCodeAt(0))
  }

  /** The bytes that a text spells, and how: as it is told to be taken, or as hex where it is hex, and else as base64. Null where it spells none. */
  const spelled = (text, as = '') => {
    if (text.trim() === '') return null
    for (const [how, read] of [['hex', ofHex], ['base64', ofBase64]]) {
      const bytes = as === '' || as === how ? read(text) : null
      if (bytes !== null) return { bytes, how }
    }
    return null
  }

  /** A form 1 update of so many blocks, each a text of one unit behind the one before. */
  const many = count => {
    const out = []
    const number = n => {
      for (; n > 127; n = Math.floor(n / 128)) out.push(128 | n % 128)
      out.push(n)
    }
    number(1)
    number(count)
    out.push(5, 0)
    for (let n = 0; n < count; n++) {
      if (n === 0) out.push(0x04, 1, 1, 0x74)
      else {
        out.push(0x84, 5)
        number(n - 1)
      }
      out.push(1, 97 + n % 26)
    }
    out.push(0)
    return Uint8Array.from(out)
  }

  /** Name and bytes, a note where the bytes do not speak for themselves, the column to light, and the state vector that sorting is asked against where it is not
   * the empty one. The first is docs/FORMAT.md's, "A line behind the wrong reading". */
  const MARCH = 'Analyst 9 has typed "abcd" into a text: a is (9, 0), d is (9, 3). Analyst 5 puts x behind b, y behind c and z behind d.'
  const examples = [
    {
      name: 'A line behind the wrong reading, form 2',
      note: `${MARCH} Their left clocks 1, 2, 3 are the run 03 01 at byte 7: the difference 1, three times, each from the value before.`,
      hex: '00 00 03 05 49 03 02 03 01 02 04 02 03 c4 01 84 06 03 78 79 7a 41 01 00 00 00 01 03 00 00',
      part: 'left clock',
      vector: '01 09 04'
    },
    {
      name: 'The same line in form 1',
      note: `${MARCH} Form 1 has no differences: each left id stands as it is, 09 01, 09 02 and 09 03.`,
      hex: '01 03 05 00 c4 09 01 09 02 01 78 c4 09 02 09 03 01 79 84 09 03 01 7a 00',
      vector: '01 09 04'
    },
    {
      name: 'The line, had it been sent wrong',
      note: 'Here the left clocks are 03 00 00, which says 1, 2, 2: z was sent to stand behind c. With 03 01 it says 1, 2, 3, and who hangs z on c has read it wrong.',
      hex: '00 00 03 05 49 03 03 03 00 00 02 04 02 03 c4 01 84 06 03 78 79 7a 41 01 00 00 00 01 03 00 00',
      part: 'left clock',
      vector: '01 09 04'
    },
    { name: 'Case C: "hi" in form 1', hex: '01 01 05 00 04 01 01 74 02 68 69 00' },
    { name: 'Case D: "hi" in form 2', hex: '00 00 01 05 00 00 01 04 06 03 74 68 69 01 02 01 01 00 00 01 01 00 00' },
    {
      name: 'A bold word, form 2',
      hex: '00 02 00 02 02 45 01 02 00 04 00 05 06 00 84 00 86 10 0b 74 62 6f 6c 64 68 69 62 6f 6c 64 01 04 02 04 01 01 00 00 01 03 00 78 7e 00'
    },
    { name: 'Plain values, form 1', hex: '01 01 05 00 08 01 01 6c 06 7d 05 7d c5 01 7c 3f 00 00 00 77 02 c3 a9 7e 76 01 01 61 75 01 78 00' },
    { name: 'A block that waits, and deletes', hex: '01 01 05 00 84 09 00 01 62 01 07 02 03 02 09 01' },
    { name: 'Refused: units past the text', hex: '00 00 01 05 00 00 01 04 06 03 74 68 69 01 03 01 01 00 00 01 01 00 00' },
    { name: 'Refused: a client in two sections', hex: '02 01 05 00 00 01 01 05 00 00 01 00' },
    { name: 'Refused: it ends early', hex: '01 01 05 00 04 01 01 74 02 68 69' },
    { name: 'Unfit for the archive: a byte behind it', hex: '01 01 05 00 04 01 01 74 02 68 69 00 07' },
    { name: '65,535 blocks', make: () => many(65535) }
  ].map(example => ({ make: () => ofHex(example.hex), ...example }))

  return { spelled, examples, ofHex }
})()
