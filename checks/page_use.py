"""What checks/pages does with a page: keys, clicks, search, slider, pictures."""
import os
import pathlib
import tempfile

KEYS = {'ArrowRight': 39, 'ArrowLeft': 37, 'ArrowDown': 40, 'ArrowUp': 38, 'Enter': 13, 'Escape': 27, 'Home': 36,
        'End': 35, 'PageDown': 34, 'PageUp': 33}
OTHERS = 'img, iframe, object, embed, b[id], link, base, [onerror], [onclick]'
CUSTOMER = 'otn.line.tributaries[otn.state.tributary].name'
TEXTS = {'Enter': '\r'}


def press(page, key, shift=False):
    text = TEXTS.get(key, key if len(key) == 1 else '')
    page.key(key, text, KEYS.get(key, ord(key) if len(key) == 1 else 0), shift)


def pictures(name, page):
    """Pictures of the page, light and dark, where SHOTS names a folder."""
    if 'SHOTS' not in os.environ:
        return
    folder = pathlib.Path(os.environ['SHOTS'])
    folder.mkdir(exist_ok=True)
    for theme in ('light', 'dark'):
        page.size(1280, 1000, theme == 'dark')
        page.run('new Promise(done => requestAnimationFrame(() => setTimeout(done, 50)))')
        page.picture(folder / f'{name.replace(" ", "-")}-{theme}.png')
    page.size(1280, 900)


def opened(window, path):
    """How many milliseconds after its beginning a page can be used."""
    page = window.open(path)
    page.wait('Boolean(window.otn)')
    time = page.run('otn.ready')
    page.close()
    return time


def harmless(tell, name, page):
    """Nothing ran, and no element is there but those of the page."""
    tell(f'{name}: nothing ran', page.run('typeof hacked === "undefined"') and not page.dialogs)
    own = page.run('document.scripts.length')
    other = page.run(f'document.querySelectorAll("{OTHERS}").length')
    tell(f'{name}: no element of it', own == 2 and other == 0)


def box(page, selector):
    """Where an element is: left, top, width, height."""
    return page.run(f'(() => {{ const b = document.querySelector({selector!r}).getBoundingClientRect(); '
                    'return [b.left, b.top, b.width, b.height]; })()')


def click(page, selector):
    page.run(f'document.querySelector({selector!r}).scrollIntoView({{block: "center"}})')
    x, y, w, h = box(page, selector)
    page.click(x + w / 2, y + h / 2)


def text(page, selector):
    return page.run(f'document.querySelector({selector!r}).textContent')


def says(page, selector, *words):
    """Whether all these words are in the text of an element."""
    return all(word in text(page, selector) for word in words)


def beside(page):
    """Whether the page is wider than its window."""
    return page.run('document.documentElement.scrollWidth > innerWidth')


def put(page, selector, value):
    """Puts a value into a field, as a hand does."""
    page.run(f'''(field => {{ field.value = {value}; field.dispatchEvent(new Event('input')); }})
        (document.querySelector({selector!r}))''')


def search(page, words):
    """Types words into the search, by its key, and Enter; answers what the page says of it."""
    page.run('document.activeElement.blur(); document.querySelector("#find").value = ""')
    press(page, '/')
    page.type(words)
    press(page, 'Enter')
    said = text(page, '#found')
    press(page, 'Escape')
    return said


def state(page, name):
    return page.run(f'otn.state.{name}')


def line_page(tell, window, path):
    """The page of the line turns-32 by its plan."""
    page = window.open(path)
    page.wait('Boolean(window.otn)')
    tell('it begins at the first alarm', state(page, 'turn') == page.run('otn.line.events.find(e => e.alarm).turn'))
    by_keys(tell, page)
    by_mouse(tell, page)
    by_search(tell, page)
    tabs(tell, page)
    message(tell, page)
    groups(tell, page)
    proved(tell, page)
    kept_address(tell, page, window, path)
    print_and_narrow(tell, page)
    tell('the page of a line: nothing on the console', not page.faults and not page.dialogs)
    page.close()


def by_keys(tell, page):
    page.run('document.activeElement.blur()')
    turns = page.run('otn.line.turns')
    for key, was, then in (('ArrowRight', 4, 5), ('ArrowLeft', 4, 3), ('PageDown', 4, 14), ('PageUp', 14, 4),
                           ('Home', 9, 0), ('End', 9, turns - 1), ('ArrowLeft', 0, 0),
                           ('ArrowRight', turns - 1, turns - 1)):
        page.run(f'otn.goTurn({was})')
        press(page, key)
        tell(f'key {key} in turn {was}', state(page, 'turn') == then)
    page.run('otn.goFrame(40)')
    press(page, 'ArrowDown')
    tell('key arrow down: the next frame', state(page, 'frame') == 41)
    press(page, 'ArrowUp')
    press(page, 'ArrowUp')
    tell('key arrow up: the frame before, and its turn', (state(page, 'frame'), state(page, 'turn')) == (39, 4))
    alarms = page.run('[...new Set(otn.line.events.filter(e => e.alarm).map(e => e.turn))].sort((a, b) => a - b)')
    page.run('otn.goTurn(0)')
    for alarm in alarms:
        press(page, ']')
        tell(f'key ]: the alarm of turn {alarm + 1}', state(page, 'turn') == alarm)
    press(page, '[')
    tell('key [', state(page, 'turn') == alarms[-2])
    span = 'otn.state.to - otn.state.from'
    press(page, '+')
    press(page, '+')
    tell('key +', page.run(span) < turns / 2 + 1)
    press(page, '-')
    press(page, '0')
    tell('key 0', page.run(span) == turns)
    press(page, '?')
    tell('key ?', page.run('document.querySelector("#keys").open'))
    press(page, 'Escape')
    tell('key Escape', not page.run('document.querySelector("#keys").open'))


def by_mouse(tell, page):
    page.run('otn.goTurn(0); scrollTo(0, 0)')
    left, top, width, height = box(page, '#line')
    first, wide = left + 92, (width - 102) / page.run('otn.line.turns')
    page.click(first + 8.5 * wide, top + 120)
    tell('a click on the ninth turn', state(page, 'turn') == 8)
    page.mouse('mouseMoved', first + 12.5 * wide, top + 120)
    tell('the tip tells the turn', text(page, '#tip').startswith('turn 13: lost multiframe'))
    page.mouse('mouseWheel', first + 8.5 * wide, top + 120, deltaX=0, deltaY=-100)
    tell('the wheel zooms', page.run('otn.state.to - otn.state.from') < page.run('otn.line.turns'))
    was = page.run('otn.state.from')
    page.drag(first + 300, top + 150, first + 100, top + 150)
    tell('a drag moves', page.run('otn.state.from') > was)
    page.drag(first + 1 + wide * page.run('(otn.state.from + otn.state.to) / 2'), top + 10, first + 5, top + 10)
    tell('the window moves', page.run('otn.state.from') == 0)
    press(page, '0')
    page.drag(first + width - 102, top + 10, first + (width - 102) / 2, top + 10)
    tell('an edge of the window moves', 14 < page.run('otn.state.to') < 17)
    press(page, '0')
    page.click(first + 2.5 * wide, top + 126)
    tell('a click on a slot chooses its customer', page.run(CUSTOMER) == 'north')
    for button, then in (('#turn-next', 3), ('#turn-before', 2)):
        click(page, button)
        tell(f'button {button}', state(page, 'turn') == then)
    click(page, '#frames tbody tr:nth-child(4)')
    tell('a click on a frame', state(page, 'frame') == page.run('otn.turnOf(2).start') + 3)
    press(page, 'ArrowDown')
    tell('from frame to frame by keys', state(page, 'frame') == page.run('otn.turnOf(2).start') + 4)
    page.run('otn.goTurn(0)')
    click(page, '#counts button:nth-child(3)')
    tell('the count of FAS goes to its frame', page.run('otn.frameOf(otn.state.frame).fas') is False)


def by_search(tell, page):
    tell('search: no such turn', search(page, 'turn 33') == 'the line has turns 1 to 31')
    tell('search: a turn', search(page, 'turn 20') == 'turn 20' and state(page, 'turn') == 19)
    tell('search: a frame', search(page, 'frame 100') == 'frame 100' and state(page, 'frame') == 100)
    search(page, 'MFAS 173')
    tell('search: an MFAS', page.run('otn.overhead(otn.state.frame, 1, 7)') == 173)
    tell('search: an MFAS in hex', search(page, 'mfas 0xAD').startswith('MFAS 173'))
    tell('search: a customer', search(page, 'office').startswith('1 of ') and state(page, 'tab') == 'customers'
         and page.run(CUSTOMER) == 'office')
    address = page.run('(() => { const p = otn.packetBytes(9); return Array.from(p.subarray(6, 12), '
                       'b => b.toString(16).padStart(2, "0")).join(":"); })()')
    said, turn = search(page, address), page.run('otn.line.packets.turn[9]')
    tell('search: an address', said == f'1 of 1: packet of turn {turn}' and state(page, 'packet') == 9)
    tell('the packet is shown', address in text(page, '#packet') and '0000  ' in text(page, '#packet pre'))
    tell('search: words of an event', 'event of turn 13' in search(page, 'lost multiframe'))
    tell('search: the next one', search(page, 'lost multiframe').startswith('2 of 2: event of turn 2'))
    tell('search: and the first one again', search(page, 'lost multiframe').startswith('1 of 2'))
    tell('search: nothing', search(page, 'no such words').startswith('nothing has') and search(page, '') == '')


def tabs(tell, page):
    names = page.run('[...document.querySelectorAll("[role=tab]")].map(b => b.id.slice(4))')
    for name in names:
        click(page, f'#tab-{name}')
        shown = page.run('[...document.querySelectorAll(".pane")].filter(p => !p.hidden).map(p => p.id)')
        tell(f'tab {name}', shown == [f'pane-{name}'])
    press(page, 'ArrowRight')
    tell('from tab to tab by keys', state(page, 'tab') == names[0])
    click(page, '#tab-events')
    click(page, '#events tbody tr:nth-child(2)')
    tell('a click on an alarm', state(page, 'turn') == page.run('otn.line.events.filter(e => e.alarm)[1].turn'))
    click(page, '#tab-customers')
    click(page, '#customers .customer:nth-child(2)')
    tell('a click on a customer', state(page, 'tributary') == 1)
    click(page, '#tab-packets')
    page.run('otn.goTurn(3)')
    click(page, '#packets tbody tr.now')
    turn = page.run('otn.line.packets.turn[otn.state.packet]')
    tell('a click on a packet', turn == 4 and text(page, '#packet pre').startswith('0000'))
    click(page, '#only')
    turns = page.run('[...document.querySelectorAll("#packets tbody tr")].map(row => row.firstChild.textContent)')
    tell('the packets of this turn only', set(turns) == {'4'})
    click(page, '#only')


def message(tell, page):
    """The message that checks/long-lines damaged: turn 10, slot 2."""
    page.run('otn.goTurn(9, 2)')
    words = text(page, '#message')
    tell('a damaged message', 'damaged' in words and 'should be' in words and 'CRC-8' in words)
    wrong = page.run('document.querySelectorAll("#overhead .is-wrong").length')
    tell('its bytes are marked', wrong == 3)
    page.run('otn.goFrame([...Array(otn.line.frames).keys()].find(f => { const m = otn.frameOf(f).message; '
             'return m.tributary && m.ii !== m.di && m.heard.how && m.heard.cm !== null; }))')
    bits = page.run('[...document.querySelectorAll("#message .inverted")].length')
    tell('inverted bits are marked', bits == 7 and 'Inverted bits' in text(page, '#message'))


def groups(tell, page):
    """The data and stuff of a multiframe, and the slider."""
    for cm in (0, 1, 7, 7616, 15000, 15168, 15231, 15232):
        data = page.run(f'Array.from({{length: 15232}}, (_, x) => +otn.isData(x + 1, {cm}))')
        want = [int(j * cm // 15232 > (j - 1) * cm // 15232) for j in range(1, 15233)]
        tell(f'the groups by Cm {cm}', data == want and sum(data) == cm)
    click(page, '#tab-gmp')
    page.run('otn.goTurn(5)')
    tell('the groups of the turn', says(page, '#gmp-sum', '15,232 groups', 'of the turn before'))
    put(page, '#what-slider', 7616)
    tell('the slider', says(page, '#gmp-sum', 'Cm 7616', 'what if', '7,616 data', '7,616 stuff'))
    put(page, '#group', 2)
    tell('a group explained', says(page, '#group-words', 'Group 2: frame 0', '= 0 < 7616: data'))
    click(page, '#as-sent')
    tell('as sent', 'what if' not in text(page, '#gmp-sum'))
    colours = page.run('''(canvas => {
        const {data} = canvas.getContext('2d').getImageData(0, 0, canvas.width, canvas.height), seen = new Set();
        for (let i = 0; i < data.length; i += 4000) seen.add(data.slice(i, i + 3).join());
        return seen.size;
    })(document.querySelector('#groups'))''')
    tell('the groups are drawn', colours > 1)


def proved(tell, page):
    """What is left where only proved numbers are shown."""
    click(page, '#proved')
    page.run('otn.state.tab = "customers"; otn.goTurn(5)')
    seen = page.run('''[...document.querySelectorAll('main *, header *')]
        .filter(e => e.children.length === 0 && e.checkVisibility()).map(e => e.textContent).join(' ')''')
    unproved = 'BIP-8 of', 'JC1', 'packet', 'LCK', 'MFAS wrong', 'damaged', 'should be', 'trace', '“LINE-0”'
    left = [word for word in unproved if word in seen]
    tell(f'proved numbers only: {left} left', not left)
    tell('proved numbers only: Cm stays', says(page, '#customers', 'Cm 1516') and says(page, '#sinks', 'campus'))
    click(page, '#proved')
    tell('all numbers again', page.run('document.querySelector("#frames").checkVisibility()'))


def kept_address(tell, page, window, path):
    """The address of the page has what is chosen."""
    page.run('otn.state.tab = "events"; otn.goFrame(77); new Promise(done => setTimeout(done, 400))')
    other = window.open(path, address=page.run('location.hash'))
    other.wait('Boolean(window.otn)')
    same = all(state(page, key) == state(other, key) for key in ('turn', 'frame', 'tab', 'tributary'))
    tell('the address keeps what is chosen', same)
    other.close()


def print_and_narrow(tell, page):
    """On paper, and in a narrow window, nothing is cut off."""
    with tempfile.TemporaryDirectory() as folder:
        page.paper(pathlib.Path(folder, 'page.pdf'))
        tell('the page on paper', pathlib.Path(folder, 'page.pdf').stat().st_size > 20000)
    for width in (1280, 1000, 700):
        page.size(width, 900)
        page.run('new Promise(done => requestAnimationFrame(() => setTimeout(done, 100)))')
        tell(f'{width} columns: nothing beside the page', not beside(page))
        for table in ('#frames', '#overhead', '#events') if width == 1280 else ():
            cut = page.run(f'(e => e.scrollWidth > e.clientWidth + 1)(document.querySelector("{table}").parentElement)')
            tell(f'{table} is not cut off', not cut)
    page.size(1280, 900)
