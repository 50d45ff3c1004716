"""The display in words: a line below the DSKY, by a file of verbs and nouns. What is wanted is worked out by hand from the rules of
docs/WEB.md, and for the landing from the table in its README."""
import json
import os

from judge import judge, scratch_folder
from site_of import example, started
from views import opened, see

FOLDER = scratch_folder()
TEXT = "document.getElementById('in-words-text').textContent"
FAULT = "document.getElementById('in-words-fault').textContent"
MARKUP = '<img src=x onerror=window.ran=1>'
BLANK = {'PROG': '__', 'VERB': '__', 'NOUN': '__', 'R1': '______', 'R2': '______', 'R3': '______', 'FLASH': 'off', 'LAMPS': 'none'}

SHOWN = (
    ({}, ''),
    ({'VERB': '1_'}, ''),
    ({'VERB': '1?', 'NOUN': '68'}, ''),
    ({'VERB': '37'}, 'V37: change program'),
    ({'VERB': '37', 'NOUN': '6_'}, 'V37: change program'),
    ({'VERB': '99', 'NOUN': '98', 'R1': '+00001'}, 'V99 N98'),
    ({'VERB': '16', 'NOUN': '68'}, 'V16 N68: monitor'),
    ({'VERB': '16', 'NOUN': '68', 'R1': '+07500', 'R2': '+01461', 'R3': '-00012'}, 'V16 N68: monitor: slant range 7500 m, time to go 146.1 s, radar less altitude -12 m'),
    ({'VERB': '16', 'NOUN': '68', 'R1': '+0750_', 'R2': '+?1461', 'R3': '-00012'}, 'V16 N68: monitor: slant range –, time to go –, radar less altitude -12 m'),
    ({'VERB': '06', 'NOUN': '60', 'R1': '+00550', 'R2': '-00005', 'R3': '+00000'}, 'V06 N60: decimal: forward speed 55.0 m/s, altitude rate -0.5 m/s, altitude 0 m'),
    ({'VERB': '06', 'NOUN': '94', 'R1': '+01421', 'R2': '+00620', 'R3': '+00275'}, 'V06 N94: decimal: speed to be gained 1421 m/s, altitude rate 62.0 m/s, altitude 2.75 km'),
    ({'VERB': '06', 'NOUN': '36', 'R1': '+00001', 'R2': '+00002', 'R3': '+05999'}, 'V06 N36: decimal: hours 1, minutes 2, seconds 59.99'),
    ({'VERB': '05', 'NOUN': '09', 'R1': '_01202', 'R2': '_00000', 'R3': '_01202'}, 'V05 N09: octal: first alarm 01202 octal, second alarm 00000 octal, last alarm 01202 octal'),
    ({'VERB': '05', 'NOUN': '60', 'R1': '_07777', 'R2': '_00089'}, 'V05 N60: octal: forward speed 07777 octal, altitude rate –'),
)
"""What a panel shows, and the words, by the landing's own file."""

WRONG = (
    ('verb 6 monitor', 'line 1: a verb has two digits.'),
    ('# one\nword 16 monitor', 'line 2: unknown word word: verb or noun.'),
    ('verb 16 monitor\nverb 16 monitor', 'line 2: verb 16 has a line already.'),
    ('noun 16', 'line 1: noun 16 has no meaning.'),
    ('noun 16 R1 mass 1 kg', 'line 1: each part of a noun is R1 NAME = WORTH UNIT, or = octal, or = min sec.'),
    ('noun 16 RX mass = 1 kg', 'line 1: each part of a noun is R1 NAME = WORTH UNIT, or = octal, or = min sec.'),
    ('noun 16 R1 mass = 1 kg\nverb\nverb 1x a', 'line 2: a verb has two digits. 1 more.'),
)
"""Files, and what is said of their first fault."""


def try_words_of_panel():
    """What the words are, and what is said of faults; markup is a text."""
    site = started(example('descent', 'rope'))
    window = opened(site)
    judge('nothing yet', ['', '', False], see(window, f"[{TEXT}, {FAULT}, find('in-words').hidden]", ['', '', False]))
    for panel, words in SHOWN:
        judge(f'{panel}', words, window.value(f'panelInWords({json.dumps({**BLANK, **panel})})'))
    window.resize(1000, 700)
    longest = max((words for _, words in SHOWN), key=len)
    window.value(f"setText(find('in-words-text'), {json.dumps(longest)}); undefined")
    judge('there is room for it at 1000 by 700', True, see(window, 'document.documentElement.scrollHeight <= innerHeight', True))
    judge('all of it is seen', True, window.value("find('in-words').getBoundingClientRect().bottom <= innerHeight"))
    window.value("keepNouns({ nouns: 'noun 44 R3 time = min sec' }); undefined")
    for signs, words in (('-12_05', '-12 min 5 s'), ('+00_59', '0 min 59 s'), ('+12005', '–'), ('+1__05', '–')):
        panel = {**BLANK, 'VERB': '16', 'NOUN': '44', 'R3': signs}
        judge(f'minutes and seconds: {signs}', f'V16 N44: time {words}', window.value(f'panelInWords({json.dumps(panel)})'))
    for text, why in WRONG:
        window.value(f'keepNouns({{ nouns: {json.dumps(text)} }}); undefined')
        judge(f'{text!r}', f'The file of nouns, {why}', window.value(FAULT))
    window.value(f"keepNouns({{ nouns: {json.dumps(f'verb 16 {MARKUP}')} }}); sayPanel({json.dumps({**BLANK, 'VERB': '16'})}); undefined")
    judge('markup is a text', [f'V16: {MARKUP}', 0, 0], window.value(f"[{TEXT}, document.querySelectorAll('#in-words img').length, window.ran ?? 0]"))
    judge('errors of the page', [], window.errors())
    window.close()
    site.end()


def try_words_of_keys():
    """What is typed is said; without a file nothing is, and the line takes no room."""
    path = os.path.join(FOLDER, 'some')
    with open(path, 'w', encoding='ascii') as file:
        file.write('verb 35 lamp test\r\nnoun 88 R1 eights = 0.001 m\r\n')
    site = started(example('verbs', 'rope'), '--nouns', path)
    window = opened(site)
    for name in ('VERB', '3', '5'):
        site.do('key', name=name)
    site.do('speed', times=10)
    site.do('play')
    judge('as it is typed', 'V35: lamp test', see(window, TEXT, 'V35: lamp test'))
    site.do('key', name='ENTR')
    judge('as it is lit', 'V88 N88: eights 88.888 m', see(window, TEXT, 'V88 N88: eights 88.888 m'))
    film = site.request('GET', '/film')[2]
    judge('the film has the file', True, '<script type="text/plain" id="nouns">\nverb 35 lamp test\\015\nnoun 88' in film)
    site.end()
    site = started(example('verbs', 'rope'))
    window.load(site.url)
    judge('without a file', [True, 0], see(window, "[find('in-words').hidden, find('in-words').clientHeight]", [True, 0]))
    judge('errors of the page', [], window.errors())
    window.close()
    site.end()


TRIES = (try_words_of_panel, try_words_of_keys)
