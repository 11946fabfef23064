"""A real browser for the tests of the pages: headless Chromium at any width and in any scheme, and what it shows."""
import contextlib
import shutil
import time

from support import Missing, same

WORDS = ('--headless=new', '--no-sandbox', '--disable-gpu', '--disable-dev-shm-usage', '--hide-scrollbars',
         '--window-size=1240,1000')
WIDTHS = (390, 768, 1280)
SCHEMES = ('light', 'dark')
USUAL_WIDTH, HEIGHT = 1240, 1000
BROKE_OFF = ('crash', 'disconnected', 'not created', 'timed out', 'timeout', 'not reachable', 'invalid session',
             'connection refused', 'remote end closed', 'unable to receive message')


def is_broken_off(fault):
    """Whether the browser itself broke off, as it may under load."""
    return type(fault).__module__.split('.')[0] in ('selenium', 'urllib3', 'http') and any(
        word in str(fault).lower() for word in BROKE_OFF)


@contextlib.contextmanager
def browser():
    try:
        from selenium import webdriver
        from selenium.webdriver.chrome.options import Options
        from selenium.webdriver.chrome.service import Service
    except ImportError:
        raise Missing('python3-selenium is missing: tools/setup --all installs it') from None
    for name, package in (('chromium', 'chromium'), ('chromedriver', 'chromium-driver')):
        if shutil.which(name) is None:
            raise Missing('%s is missing: tools/setup --all installs it' % package)
    options = Options()
    for word in WORDS:
        options.add_argument(word)
    options.binary_location = shutil.which('chromium')
    options.set_capability('goog:loggingPrefs', {'browser': 'ALL'})
    driver = webdriver.Chrome(service=Service(shutil.which('chromedriver')), options=options)
    try:
        yield driver
    finally:
        driver.quit()


def lay_out(driver, width=USUAL_WIDTH, height=HEIGHT, scheme='light'):
    """The width of the window, also of a narrow one, and the scheme that the reader asks for."""
    driver.execute_cdp_cmd('Emulation.setDeviceMetricsOverride',
                           {'width': width, 'height': height, 'deviceScaleFactor': 1, 'mobile': width < 600})
    driver.execute_cdp_cmd('Emulation.setEmulatedMedia', {'features': [{'name': 'prefers-color-scheme', 'value': scheme}]})


def show(driver, path, width=USUAL_WIDTH, height=HEIGHT, scheme='light'):
    """Opens a page, and waits until its script has ended."""
    lay_out(driver, width, height, scheme)
    driver.get('file://' + path)
    for _ in range(200):
        if driver.execute_script('return document.body.dataset.ready') == 'yes':
            break
        time.sleep(0.1)
    same('the page is ready', driver.execute_script('return document.body.dataset.ready'), 'yes')


def log_is_empty(driver):
    same('the browser\'s log', [entry['message'] for entry in driver.get_log('browser')], [])


@contextlib.contextmanager
def opened(path, width=USUAL_WIDTH, scheme='light'):
    """A page in a browser, whose log must be empty when it is left."""
    with browser() as driver:
        show(driver, path, width, HEIGHT, scheme)
        yield driver
        log_is_empty(driver)


def text_of(driver, name):
    return driver.find_element('id', name).text


def lines_of(driver, name):
    return text_of(driver, name).split('\n')


def press(driver, name, key, times=1):
    from selenium.webdriver.common.keys import Keys
    for _ in range(times):
        driver.find_element('id', name).send_keys(getattr(Keys, key))


def cells(driver, rows):
    """The texts of a table's rows, which a selector names."""
    return driver.execute_script('return [...document.querySelectorAll(arguments[0])]'
                                 '.map(row => [...row.cells].map(cell => cell.textContent))', rows)


# Each text that can be seen has a box. What is pushed out of sight in a part that scrolls has none, and of parts that are
# fixed above such a part the upper one counts.
OVERLAPS = r"""
const boxes = [];
const isIn = (box, frame) => box.left < frame.right - 1 && box.right > frame.left + 1 && box.top < frame.bottom - 1 && box.bottom > frame.top + 1;
const walker = document.createTreeWalker(document.body, NodeFilter.SHOW_TEXT);
for (let node; (node = walker.nextNode());) {
    const parent = node.parentElement, style = getComputedStyle(parent);
    if (!node.textContent.trim() || !parent.checkVisibility() || parent.closest('script, style, noscript, option, select, .modebar')) continue;
    if (style.position === 'sticky' || parent.closest('.scroll')) continue;
    if (style.opacity === '0' || style.visibility === 'hidden') continue;
    const range = document.createRange();
    range.selectNodeContents(node);
    for (const box of range.getClientRects())
        if (box.width > 1 && box.height > 1) boxes.push({text: node.textContent.trim().slice(0, 40), left: box.left, right: box.right,
            top: box.top + 0.2 * box.height, bottom: box.bottom - 0.2 * box.height, node});
}
const found = [];
for (let one = 0; one < boxes.length; one++)
    for (let other = one + 1; other < boxes.length; other++)
        if (boxes[one].node !== boxes[other].node && isIn(boxes[one], boxes[other])) found.push(`${boxes[one].text} | ${boxes[other].text}`);
const wide = document.documentElement.scrollWidth - innerWidth;
if (wide > 0) {
    const far = [...document.body.querySelectorAll('*')].filter(each => each.getBoundingClientRect().right > innerWidth + 1 && !each.closest('.wide, .scroll'));
    found.push(`${wide} points too wide: ${far.slice(0, 3).map(each => each.id || each.className || each.tagName)}`);
}
return found;
"""


def overlaps(driver):
    """Which texts lie over one another, and what is wider than the window."""
    return driver.execute_script(OVERLAPS)


# The contrast of a text with what is below it, as WCAG reckons it, of the texts that have least of it.
CONTRASTS = r"""
const channel = value => value <= 0.03928 ? value / 12.92 : ((value + 0.055) / 1.055) ** 2.4;
const light = ([red, green, blue]) => 0.2126 * channel(red / 255) + 0.7152 * channel(green / 255) + 0.0722 * channel(blue / 255);
const numbers = colour => (colour.match(/[0-9.]+/g) || []).map(Number);
const below = each => {
    for (let at = each; at; at = at.parentElement) {
        const colour = numbers(getComputedStyle(at).backgroundColor);
        if (colour.length === 3 || colour[3] > 0.5) return colour;
    }
    return [255, 255, 255];
};
const seen = [];
for (const each of document.body.querySelectorAll('*')) {
    if (![...each.childNodes].some(node => node.nodeType === 3 && node.textContent.trim()) || !each.checkVisibility()) continue;
    if (each.closest('script, style, noscript, option')) continue;
    const isDrawn = each.namespaceURI.endsWith('svg'), style = getComputedStyle(each);
    const [one, other] = [light(numbers(isDrawn ? style.fill : style.color)), light(below(each))].sort((one, other) => other - one);
    seen.push([(one + 0.05) / (other + 0.05), each.textContent.trim().slice(0, 30)]);
}
return seen.sort((one, other) => one[0] - other[0]).slice(0, 3);
"""


def least_contrast(driver):
    """The least contrast of a text, and that text."""
    return driver.execute_script(CONTRASTS)[0]
