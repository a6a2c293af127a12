// The page in a browser, opened as a file: what it shows is held to what the library answers (bindings/js), its keys and clicks to where they lead, and it asks for
// no address. Screenshots go to target/web.
import assert from 'node:assert/strict'
import { mkdirSync, readFileSync, writeFileSync } from 'node:fs'
import { createServer } from 'node:http'
import { fileURLToPath } from 'node:url'
import { load, Refused, TYPES } from '../../bindings/js/index.js'
import { bytes, C, D, hex, many, MARCH1, MARCH2 } from '../../bindings/js/test/cases.mjs'
import { cases } from '../../bindings/js/test/stream.mjs'
import { open } from './browser.mjs'

const root = new URL('../../', import.meta.url)
const out = new URL('target/web/', root)
mkdirSync(out, { recursive: true })
const library = await load()
const browser = await open(process.env.CHROMIUM ?? 'chromium')
let [held, not] = [0, 0]

// ---- what is expected

const text = (update, { place, bytes }) => JSON.stringify(new TextDecoder().decode(update.subarray(place, place + bytes)))
const id = x => x === null ? '' : `(${x.client}, ${x.clock})`
/** The cells of a block's row, of kinds whose value is seen here. */
const cells = update => (b, n) => {
  const holds = { text: () => text(update, b.part), type: () => [TYPES[b.type], b.mark === null ? '' : text(update, b.mark)].join(' ').trim() }[b.kind]?.() ?? ''
  return [n, b.client, b.clock, b.length, b.kind, holds, id(b.left), id(b.right), b.name === null ? id(b.parent) : text(update, b.name)].map(String)
}

// ---- what is shown

const ROWS = '[...document.querySelectorAll("#blocks .body .row:not([hidden])")].sort((a, b) => a.dataset.n - b.dataset.n).map(row => [...row.children].map(cell => cell.textContent))'
const VERDICT = 'document.querySelector("#verdict").textContent'
/** The bytes that are lit in some way, as hex, in order of rows. */
const lit = name => `[...document.querySelectorAll("#bytes .row:not([hidden])")].sort((a, b) => a.dataset.n - b.dataset.n).flatMap(row => [...row.querySelectorAll(".cells .${name}")].map(i => i.textContent)).join(" ").replace(/ +/g, " ")`

const page = await browser.page(new URL('web/index.html', root).href)
await page.until('document.body.dataset.ready === "true"')

const shot = async name => {
  await page.drawn()
  writeFileSync(new URL(`${name}.png`, out), await page.screenshot())
}
/** Gives the page a file by its chooser, and waits until it is shown. */
const give = async (name, update) => {
  const file = fileURLToPath(new URL(name, out))
  writeFileSync(file, update)
  const shown = Number(await page.evaluate('document.body.dataset.shown ?? 0'))
  await page.chooseFile('#file', file)
  await page.until(`Number(document.body.dataset.shown ?? 0) > ${shown}`)
  await page.drawn()
}
const clickByte = async place => {
  const [x, y] = await page.evaluate(`middleOf(${place})`)
  for (const type of ['mousePressed', 'mouseReleased']) await page.ask('Input.dispatchMouseEvent', { type, x, y, button: 'left', clickCount: 1 })
  await page.drawn()
}
const test = async (name, run) => {
  try {
    await run()
    held++
    console.log(name)
  } catch (e) {
    not++
    console.log(`NOT: ${name}\n${e.stack}`)
    await shot(`not-${not}`)
  }
}

/** A file of a few blocks is shown as the library reads it, in the form that is found out. */
const shown = async (name, form, update, words = []) => {
  await give(name, update)
  const { blocks, ranges } = library.read(form, update)
  assert.deepEqual(await page.evaluate(ROWS), blocks.map(cells(update)))
  const verdict = await page.evaluate(VERDICT)
  for (const word of [`Reads in form ${form}`, name, `${update.length} byte`, `${blocks.length} block`, `${ranges.length} delete range`, ...words]) assert.ok(verdict.includes(word), `${word}: ${verdict}`)
  assert.equal(await page.evaluate('document.querySelector("#tab-blocks .count").textContent'), String(blocks.length))
  const all = await page.evaluate('[...document.querySelectorAll("#bytes .row:not([hidden])")].sort((a, b) => a.dataset.n - b.dataset.n).map(row => row.children[1].textContent).join("").replace(/\\s/g, "")')
  assert.equal(all, hex(update).slice(0, all.length))
}
const refusal = (form, update, call = 'read') => {
  try {
    library[call](form, update)
  } catch (e) {
    if (e instanceof Refused) return e
    throw e
  }
  throw new Error('it is not refused')
}

// ---- the tests

await test('the page is there, and says what is proved and what is not', async () => {
  await shot('empty')
  const foot = await page.evaluate('document.querySelector("footer").textContent')
  assert.ok(foot.includes('What is proved') && foot.includes('What is not') && foot.includes('wairokabi.wasm'))
})

await test('case C', async () => {
  await shown('c.update', 1, C, ['Fit for the archive'])
  assert.equal(await page.evaluate(lit('stored')), '68 69')
  assert.equal(await page.evaluate(lit('name')), '74')
  await shot('c')
})

await test('case D', async () => {
  await shown('d.update', 2, D, ['Fit for the archive'])
  assert.equal(await page.evaluate(lit('stored')), '68 69')
  assert.equal(await page.evaluate('document.querySelectorAll("#columns tbody tr").length'), 11)
  await shot('d')
})

await test('the example of March, one click away', async () => {
  await page.click('#march')
  assert.deepEqual(await page.evaluate(ROWS), library.read(2, MARCH2).blocks.map(cells(MARCH2)))
  assert.deepEqual((await page.evaluate(ROWS)).map(row => row[6]), ['(9, 1)', '(9, 2)', '(9, 3)'])
  assert.equal(await page.evaluate(lit('column')), '03 01')
  const draws = await page.evaluate('[...document.querySelectorAll("#draws tbody tr")].map(row => [...row.children].map(cell => cell.textContent))')
  assert.deepEqual(draws, [['1', 'byte 7  03 01', '0', '+1', '1'], ['2', 'of the same run', '1', '+1', '2'], ['3', 'of the same run', '2', '+1', '3']])
  await shot('march')
  await page.colours(true)
  await shot('march-dark')
  const [ink, paper] = await page.evaluate('[getComputedStyle(document.body).color, getComputedStyle(document.body).backgroundColor].map(colour => colour.match(/\\d+/g).slice(0, 3).reduce((a, b) => a + Number(b), 0))')
  assert.ok(ink > 600 && paper < 120)
  await page.colours(false)
  await shown('march-1.update', 1, MARCH1)
})

await test('the draws from every column of form 2', async () => {
  const update = bytes('00 02 00 02 02 45 01 02 00 04 00 05 06 00 84 00 86 10 0b 74 62 6f 6c 64 68 69 62 6f 6c 64 01 04 02 04 01 01 00 00 01 03 00 78 7e 00')
  await give('bold.update', update)
  const drawn = async (n, kind, from, to, shown) => {
    await page.click(`#columns tbody tr:nth-child(${n}) .link`)
    const rows = await page.evaluate('[...document.querySelectorAll("#draws tbody tr")].map(row => row.lastChild.textContent)')
    assert.deepEqual(rows, library.draws(kind, update.subarray(0, to), from).draws.map(shown))
    assert.equal(await page.evaluate('now.part.from'), from)
    return page.evaluate('$("draws").lastChild.textContent')
  }
  assert.equal(await drawn(2, 'differences', 2, 4, d => String(d.value)), 'Then the column ends.')
  await drawn(3, 'numbers', 5, 7, d => String(d.value))
  await drawn(4, 'differences', 8, 10, d => String(d.value))
  assert.match(await drawn(6, 'bytes', 12, 17, d => hex([d.value])), /without end/)
  await drawn(7, 'texts', 18, 34, d => text(update, d))
  await shot('column')
})

await test('a click on a block lights its bytes, and a click on a byte goes to its block', async () => {
  await page.click('#march')
  await page.click('#block-2')
  assert.equal(await page.evaluate(lit('stored')), '7a')
  assert.match(await page.evaluate('$("block").textContent'), /Block 2.*"z".*byte 20.*\(5, 2\).*\(9, 3\)/)
  await clickByte(18)
  assert.equal(await page.evaluate('document.querySelector("#blocks [aria-selected=true]").id'), 'block-0')
  assert.equal(await page.evaluate(lit('stored')), '78')
  assert.equal(await page.evaluate('$("byte").textContent'), 'byte 18 (0x12): 78 is 120, in the column text; stored part of block 0')
  await clickByte(8)
  assert.equal(await page.evaluate('$("byte").textContent'), 'byte 8 (0x8): 01 is 1, in the column left clock; of block 0: left clock 0 + 1 = 1, first of 3')
  await clickByte(8)
  assert.equal(await page.evaluate('$("byte").textContent'), 'byte 8 (0x8): 01 is 1, in the column left clock; of block 1: left clock 1 + 1 = 2, second of 3')
  for (const place of [0, 7, 8, 15, 16, 19, 29]) {
    await clickByte(place)
    assert.match(await page.evaluate('$("byte").textContent'), new RegExp(`^byte ${place} \\(`))
  }
})

await test('the explanation of a block, and the arithmetic of a byte', async () => {
  await page.click('#march')
  await page.click('#block-2')
  const rows = () => page.evaluate('[...document.querySelectorAll("#block tbody tr")].map(row => [...row.children].map(cell => cell.textContent.replace(/\\s+/g, " ").trim()))')
  assert.deepEqual(await rows(), [
    ['block count', '3', 'byte 27 03', ''],
    ['client', '5', 'byte 3 05, first of 1', ''],
    ['first clock', '0', 'byte 28 00', ''],
    ['clock', '2', 'the first clock and the lengths before it', '0 + 2 = 2'],
    ['info', '132', 'byte 15 84, without end', ''],
    ['left client', '9', 'bytes 4 to 5 49 03, fifth of 5', ''],
    ['left clock', '3', 'bytes 7 to 8 03 01, third of 3', '2 + 1 = 3'],
    ['text', '1', 'bytes 21 to 22 41 01, third of 3; byte 20 7a', '']
  ])
  assert.deepEqual([await page.evaluate(lit('drawn-left')), await page.evaluate(lit('drawn-head')), await page.evaluate(lit('drawn-stored'))], ['49 03 03 01', '05 03 00', '41 01'])
  await clickByte(7)
  assert.equal(await page.evaluate('document.querySelector("#block tr.chosen").textContent.replace(/\\s+/g, " ")'), 'left clock3bytes 7 to 8 03 01, third of 32 + 1 = 3')
  assert.match(await page.evaluate('$("byte").textContent'), /^byte 7 .* of block 2: left clock 2 \+ 1 = 3, third of 3$/)
  await shot('explained')
  await page.colours(true)
  await shot('explained-dark')
  await page.colours(false)
})

await test('every byte of a file leads to the block that draws it', async () => {
  for (const [form, update] of [[2, MARCH2], [1, MARCH1], [2, D], [1, C]]) {
    await give('all.update', update)
    await page.evaluate(`setForm('${form}')`)
    const drawers = await page.evaluate('Array.from(now.bytes, (_, at) => drawerOf(at))')
    const { blocks } = library.read(form, update)
    const expected = Array.from(update, (_, at) => {
      const n = blocks.findIndex((_, n) => library.explain(form, update, n).some(l => l.place !== null && l.place <= at && at < l.place + l.bytes))
      return n === -1 ? null : n
    })
    assert.deepEqual(drawers.map((n, at) => expected[at] === null ? null : n), expected)
  }
  await page.evaluate('setForm("both")')
})

await test('keys', async () => {
  await page.key('e')
  await page.evaluate('$("blocks").focus()')
  const selected = () => page.evaluate('document.querySelector("#blocks [aria-selected=true]").dataset.n')
  await page.key('ArrowDown')
  assert.equal(await selected(), '1')
  await page.key('End')
  assert.equal(await selected(), '2')
  await page.key('Home')
  assert.equal(await selected(), '0')
  await page.key('ArrowDown')
  await page.key('Enter')
  assert.deepEqual(await page.evaluate('[document.activeElement.id, now.byte]'), ['bytes', 19])
  await page.key('ArrowRight')
  assert.deepEqual(await page.evaluate('[now.byte, now.block]'), [20, 2])
  await page.key('ArrowUp')
  assert.equal(await page.evaluate('now.byte < 20'), true)
  await page.key('End')
  assert.equal(await page.evaluate('now.byte'), 29)
  await page.key('1')
  assert.match(await page.evaluate(VERDICT), /Reads in form 1/)
  await page.key('2')
  assert.match(await page.evaluate(VERDICT), /Reads in form 2/)
  await page.key('b')
  assert.equal(await page.evaluate('document.querySelector("input[name=form]:checked").value'), 'both')
})

await test('refused files: the number, the words, and the byte lit', async () => {
  for (const [name, form, update] of [
    ['refused-7.update', 2, bytes('0000010500000104060374686901030101000001010000')],
    ['refused-4.update', 1, bytes('020105000001010500000100')],
    ['refused-1.update', 1, C.subarray(0, 11)],
    ['refused-column.update', 2, bytes('0000014500000104060374686901020101000001010000')]
  ]) {
    await give(name, update)
    const { number, at, words } = refusal(form, update)
    const verdict = await page.evaluate(VERDICT)
    assert.ok(verdict.includes(`Refused in form ${form}`) && verdict.includes(`refused ${number} at byte ${at}, `) && verdict.includes(words), verdict)
    assert.equal(await page.evaluate(lit('blamed')), at < update.length ? hex(update.subarray(at, at + 1)) : '··')
    assert.deepEqual(await page.evaluate(ROWS), [])
    assert.equal(await page.evaluate('now.byte'), at)
    if (number === 7) await shot('refused')
  }
  assert.match(await page.evaluate(VERDICT), /the end of the column client/)
})

await test('a byte that stays unread is blamed, and the rest is shown', async () => {
  const behind = Uint8Array.of(...C, 7)
  await shown('behind.update', 1, behind, ['Not fit for the archive', `refused 15 at byte 12`])
  assert.equal(refusal(1, behind, 'readStrict').at, 12)
  assert.equal(await page.evaluate(lit('blamed')), '07')
})

await test('delete ranges', async () => {
  const update = bytes('01010502000301070203020901')
  await shown('deleted.update', 1, update)
  await page.click('#tab-ranges')
  const rows = await page.evaluate('[...document.querySelectorAll("#ranges .body .row:not([hidden])")].map(row => [...row.children].slice(0, 3).map(cell => cell.textContent))')
  assert.deepEqual(rows, library.read(1, update).ranges.map(r => [r.client, r.clock, r.length].map(String)))
  await shot('ranges')
})

await test('sorting, by both rules and against a vector', async () => {
  const sorted = async (rule, vector) => {
    await page.evaluate(`document.querySelector('input[name=rule][value="${rule}"]').click(); $('vector').value = '${vector}'; $('vector').dispatchEvent(new Event('input'))`)
    await page.drawn()
    return page.evaluate('$("sorted").textContent')
  }
  await give('waits.update', bytes('01010500840900016200'))
  await page.click('#tab-sorting')
  assert.match(await sorted(28, '00'), /0 of 1 block can be applied, 1 client waits\..*waits for client 9, known up to 0/)
  assert.match(await sorted(28, '010901'), /1 of 1 block can be applied, none waits\..*blocks 0/)
  assert.match(await sorted(28, '0209010901'), /The state vector is refused 4/)
  assert.match(await sorted(28, '0'), /not pairs of hex digits/)
  await give('late.update', bytes('0101050304010174016100'))
  await page.click('#tab-sorting')
  assert.match(await sorted(13, '00'), /0 of 1 block can be applied.*waits for its own ids, known up to 0/)
  assert.match(await sorted(28, '00'), /1 of 1 block/)
  await shot('sorting')
})

await test('pasted and dropped bytes', async () => {
  await page.evaluate('document.activeElement.blur()')
  await page.key('p')
  const typed = async (words, as = '') => page.evaluate(`$('text').value = ${JSON.stringify(words)}; document.querySelector('input[name=spelling][value="${as}"]').click(); sayText(); $('text-is').textContent`)
  assert.equal(await typed('AQEFAAQBAXQCaGkA'), '12 bytes, spelled in base64')
  assert.equal(await typed('0x01, 0x01 05:00'), '4 bytes, spelled in hex')
  assert.equal(await typed('no bytes!'), 'this is neither pairs of hex digits nor base64')
  assert.equal(await typed('0101', 'base64'), '3 bytes, spelled in base64')
  assert.equal(await typed('hex:010105000401017402686900'), '12 bytes, spelled in hex')
  await shot('pasting')
  await page.click('#text-read')
  await page.until('!$("pasting").open')
  assert.deepEqual(await page.evaluate(ROWS), library.read(1, C).blocks.map(cells(C)))
  await page.evaluate(`(() => { const data = new DataTransfer(); data.items.add(new File([Uint8Array.from(${JSON.stringify([...D])})], 'dropped.update')); document.body.dispatchEvent(new DragEvent('drop', { dataTransfer: data, bubbles: true, cancelable: true })) })()`)
  await page.until('document.querySelector("#verdict").textContent.includes("dropped.update")')
  assert.deepEqual(await page.evaluate(ROWS), library.read(2, D).blocks.map(cells(D)))
})

await test('any-values and marks as the command shows them', async () => {
  const shownHolds = async update => {
    await give('values.update', bytes(update))
    return (await page.evaluate(ROWS)).map(row => row[5])
  }
  assert.deepEqual(await shownHolds('010105002801016d016b037d05760101617502787f7702c3a900'), ['[5,{"a":[true,undefined]},"é"]'])
  assert.deepEqual(await shownHolds('010105000601017404626f6c64047472756500'), ['"bold" = true'])
  assert.deepEqual(await shownHolds('000100010500000106080574626f6c640104010100000101007800'), ['"bold" = true'])
  assert.deepEqual(await shownHolds('010205000701017403017087050005017000'), ['xml element "p"', 'xml hook "p"'])
  assert.deepEqual(await shownHolds('010105000301017402080900'), ['hex:0809'])
})

await test('65,535 blocks: as many as are in sight are drawn, wherever it is scrolled to', async () => {
  const update = many(65535)
  const begun = Date.now()
  await give('many.update', update)
  const took = Date.now() - begun
  const { blocks } = library.read(1, update)
  const expected = blocks.map(cells(update))
  for (const n of [0, 30000, 65534, 12345]) {
    await page.evaluate(`choose({ block: ${n} })`)
    await page.drawn()
    const rows = await page.evaluate(ROWS)
    assert.ok(rows.length > 10 && rows.length < 80)
    assert.deepEqual(rows, expected.slice(Number(rows[0][0]), Number(rows.at(-1)[0]) + 1))
    assert.ok(rows.some(row => row[0] === String(n)))
    assert.equal(await page.evaluate(lit('stored')), hex(update.subarray(blocks[n].part.place, blocks[n].part.place + 1)))
  }
  await shot('many')
  await page.evaluate('$("blocks").focus()')
  await page.key('PageDown')
  assert.ok(await page.evaluate('now.block') > 12350)
  const frames = await page.evaluate(`(async () => {
    const frames = []
    for (let k = 0, last = performance.now(); k < 60; k++) {
      $('blocks').scrollTop = 25000 * k
      $('bytes').scrollTop = 9000 * k
      await new Promise(requestAnimationFrame)
      frames.push(performance.now() - last)
      last = performance.now()
    }
    return frames.sort((a, b) => a - b)
  })()`)
  console.log(`    given and shown in ${took} ms; of 60 frames of scrolling the middle one took ${Math.round(frames[30])} ms, the longest ${Math.round(frames[59])} (on this machine, with what ran beside it)`)
})

await test('a large update in form 2', async () => {
  const update = library.convert(1, many(4000), 2)
  await give('form-2.update', update)
  const rows = await page.evaluate(ROWS)
  assert.deepEqual(rows, library.read(2, update).blocks.map(cells(update)).slice(0, rows.length))
})

await test('updates of the case stream are shown without a complaint, as many blocks as the library reads', async () => {
  const asked = [...cases()].filter(([operation, given]) => operation === 14 && (given[0] === 1 || given[0] === 2)).filter((_, n) => n % 97 === 0)
  const given = asked.map(([, [form, , , update]]) => [form, [...update]])
  const found = await page.evaluate(`${JSON.stringify(given)}.map(([form, update]) => {
    askForm(String(form))
    take('of the stream', Uint8Array.from(update))
    for (const part of now.parts) choose({ part, block: now.block })
    for (let byte = 0; byte < Math.min(now.bytes.length, 40); byte++) goTo(byte)
    return [blockRows.count, rangeRows.count, $('verdict').textContent.match(/refused (\\d+)/)?.[1] ?? '0']
  })`)
  const expected = given.map(([form, update]) => {
    try {
      const { blocks, ranges } = library.read(form, Uint8Array.from(update))
      return [blocks.length, ranges.length]
    } catch (e) {
      return [0, 0, String(e.number)]
    }
  })
  assert.deepEqual(found.map((row, n) => row.slice(0, expected[n].length)), expected)
  await page.evaluate('askForm("both")')
  console.log(`    ${given.length} updates, ${expected.filter(row => row.length === 3).length} of them refused`)
})

await test('a narrow window', async () => {
  await page.size(420, 900)
  await page.click('#march')
  assert.equal(await page.evaluate('document.documentElement.scrollWidth <= 420'), true)
  await shot('narrow')
  await page.size(1440, 900)
})

await test('bindings/js in a browser, from a server', async () => {
  const types = { js: 'text/javascript', wasm: 'application/wasm' }
  const server = createServer((asked, answer) => {
    const type = types[asked.url.split('.').at(-1)]
    if (type === undefined) return answer.end('<!DOCTYPE html><title>empty</title>')
    answer.setHeader('Content-Type', type)
    return answer.end(readFileSync(new URL(`.${asked.url}`, root)))
  })
  await new Promise(resolve => server.listen(0, '127.0.0.1', resolve))
  try {
    const other = await browser.page(`http://127.0.0.1:${server.address().port}/`)
    const found = await other.evaluate(`import('/bindings/js/index.js').then(async ({ load, Refused }) => {
      const library = await load()
      const update = Uint8Array.from(${JSON.stringify([...MARCH2])})
      try {
        library.read(1, update.subarray(0, 0))
      } catch (e) {
        return [library.read(2, update), e instanceof Refused && e.message]
      }
    })`)
    assert.deepEqual(found, [library.read(2, MARCH2), refusal(1, new Uint8Array()).message])
    await other.close()
  } finally {
    server.closeAllConnections()
    server.close()
  }
})

await test('an engine without 64-bit memory is told so', async () => {
  const other = await browser.page(new URL('web/index.html', root).href, { before: 'WebAssembly.validate = () => false' })
  await other.until('document.querySelector("#empty").textContent.includes("does not run in this browser")')
  assert.match(await other.evaluate('$("empty").textContent'), /64-bit memory/)
  await other.close()
})

await test('no complaint, and no address was asked for but its own files', async () => {
  assert.deepEqual(page.problems, [])
  assert.deepEqual(page.requests.filter(url => !url.startsWith(new URL('web/', root).href) && !url.startsWith('data:')), [])
  const reached = await page.evaluate('fetch("https://example.com/").then(() => "reached", () => "kept in")')
  assert.equal(reached, 'kept in')
})

console.log(`${await browser.version()}, Node ${process.version}; screenshots are in target/web`)
await browser.close()
console.log(`web test: ${held} held, ${not} not`)
process.exitCode = not === 0 ? 0 : 1
