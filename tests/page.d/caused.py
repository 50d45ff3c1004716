"""What caused this, and steps by calls, in agc.html: tests/web's cases."""
import os

import causes
import stepped
from judge import judge
from listed import woven
from listing import dropped, text_of
from local import LocalPage, LocalSite
from site_of import example, wait


def try_causes():
    """Without a listing, and with one the order's line is lit."""
    rope = example('verbs', 'rope')
    site = LocalSite(rope, causes.with_keys(causes.KEYS))
    page = LocalPage(site)
    causes.of_panel(site, page.window, rope)
    causes.of_cells(site, page.window, rope)
    causes.by_keyboard(site, page.window)
    judge('errors of the page', [], page.window.errors())
    page.close()


def try_cause_line():
    """A listing that is dropped on the page."""
    folder = woven('verbs')
    site = LocalSite(os.path.join(folder, 'rope'), causes.with_keys(causes.KEYS))
    page = LocalPage(site)
    dropped(page, 'verbs.listing', text_of(os.path.join(folder, 'listing')))
    judge('it is offered', True, wait(lambda: page.value('listing.offered')))
    causes.of_line(site, page.window, folder)
    page.close()


def try_calls():
    """Step, Over and Finish, and back."""
    rope = os.path.join(stepped.folder_of(), 'rope')
    page = LocalPage(LocalSite(rope))
    stepped.of_steps(page.window, rope)
    judge('errors of the page', [], page.window.errors())
    page.close()


TRIES = (try_causes, try_cause_line, try_calls)
