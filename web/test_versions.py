#!/usr/bin/python3
"""Two versions of the page: on one server at once, and in the files of one browser. In Debian's Chromium.

usage: test_versions.py GBKEEP [NAME ..]     NAME: of a test, as one_server; all are run where none is given"""
import shutil
import sys
import tempfile
import time
import unittest
from pathlib import Path

from web.test_web import DIST, Browser, Page, Server, list_files, main

WORDS = {'old': 'of the old version', 'new': 'of the new version'}
# what the module of the page that speaks says, as the page has it
SPEAKS = 'return (await (await fetch("refusals.js")).text()).includes(given[0])'


def version(folder, name):
    """A page of a version: its refusals say so."""
    shutil.copytree(DIST, folder)
    with open(folder / 'refusals.js', 'a', encoding='utf-8') as file:
        file.write(f'// {WORDS[name]}\n')
    list_files(folder)


class Versions(unittest.TestCase):
    def setUp(self):
        self.room = Path(tempfile.mkdtemp(prefix='web-'))
        self.addCleanup(shutil.rmtree, self.room, ignore_errors=True)
        self.top = self.room / 'top'
        self.top.mkdir()
        for name in WORDS:
            version(self.room / name, name)
        self.serve()
        self.browser = Browser(self.room / 'profile')
        self.addCleanup(lambda: self.browser.close())
        self.page = Page(self.browser)

    def serve(self, port=0):
        self.server = Server(self.top, port)
        self.addCleanup(self.server.close)

    def url(self, folder, words=''):
        return self.server.url(words).replace('index.html', f'{folder}/index.html')

    def put(self, name, folder='page', leaving=()):
        """Serves a version, but for files of which the one before stays."""
        for path in (self.room / name).iterdir():
            if path.name not in leaving:
                (self.top / folder).mkdir(exist_ok=True)
                shutil.copy(path, self.top / folder)

    def is_kept(self, folder='page'):
        """Whether a version is kept for a time without a network, or was refused."""
        return self.page.wait_for('''
            const registration = await navigator.serviceWorker.getRegistration();
            const worker = registration?.installing ?? registration?.waiting;
            if (worker) { await new Promise((done) => { worker.onstatechange = () => ['activated', 'installed', 'redundant'].includes(worker.state) && done(); setTimeout(done, 3000); }); }
            return Boolean((await navigator.serviceWorker.getRegistration())?.active);''')

    def opened(self, folder='page', words=''):
        return self.page.open(self.url(folder, words))

    def offline(self, run):
        port = self.server.port
        self.server.close()
        try:
            run()
        finally:
            self.serve(port)

    def test_mixture_is_not_kept(self):
        """A server that has files of two versions for a moment: none of them is kept, and the next whole one is."""
        self.put('old')
        self.put('new', leaving=('refusals.js',))
        self.opened()
        self.page.wait_for(SPEAKS, WORDS['old'])
        time.sleep(2)
        was_kept = self.is_kept()
        self.put('new')
        # each tab is closed, as a person would do at the end
        self.browser.get('about:blank')
        time.sleep(0.5)
        self.opened()
        self.until_kept()
        self.opened()

        def look():
            self.opened()
            self.assertTrue(self.page.wait_for(SPEAKS, WORDS['new']), 'the mixture is kept for good')
        self.offline(look)
        self.assertFalse(was_kept, 'the mixture was kept')

    def until_kept(self):
        self.page.until(self.is_kept, 'the page is never kept for later')

    def test_mixture_says_so(self):
        """A page whose files are of two versions says so."""
        self.put('old')
        self.put('new', leaving=('refusals.js',))
        page = self.opened('page', '?cart=demo.gb&paused=1')
        warning = page.js("return document.getElementById('warnings')?.textContent ?? ''")
        self.assertIn('two versions', warning)
        self.assertIn('refusals.js', warning)
        # it is loaded anew no more than once
        self.assertEqual(page.press(0, 5), 5)
        self.assertEqual(page.save(), 5)

    def test_kept_mixture(self):
        """A browser that has a mixture kept loads the page from the network, says so, and has all games."""
        self.put('new')
        page = self.opened('page', '?cart=demo.gb&paused=1')
        page.press(0, 50)
        page.save()
        self.until_kept()
        changed = page.wait_for('''
            let count = 0;
            for (const name of await caches.keys()) {
              const cache = await caches.open(name);
              for (const request of await cache.keys()) {
                if (request.url.endsWith('/refusals.js')) {
                  const text = (await (await cache.match(request)).text()).replaceAll(given[1], given[0]);
                  await cache.put(request, new Response(text, { headers: { 'Content-Type': 'text/javascript' } }));
                  count += 1;
                }
              }
            }
            return count;''', WORDS['old'], WORDS['new'])
        self.assertEqual(changed, 1)
        page = self.opened('page', '?cart=demo.gb&paused=1')
        self.assertTrue(page.wait_for(SPEAKS, WORDS['new']), 'the mixture is played')
        self.assertIn('it was loaded from the network anew', page.js("return document.getElementById('warnings')?.textContent ?? ''"))
        self.assertEqual(page.count(), 50)
        # the next time it is kept whole, and nothing is said
        self.until_kept()
        page = self.opened('page', '?cart=demo.gb&paused=1')
        self.assertEqual(page.js("return document.getElementById('warnings').textContent"), '')

        def look():
            page = self.opened()
            self.assertTrue(page.wait_for(SPEAKS, WORDS['new']))
        self.offline(look)

    def test_one_server(self):
        """Two versions at two places of one server: each is kept, whichever was opened last."""
        for name in WORDS:
            self.put(name, name)
        for name in ('old', 'new', 'old', 'new'):
            self.opened(name)
            self.until_kept()
            self.opened(name)
            time.sleep(0.3)

        def look():
            for name, words in WORDS.items():
                try:
                    self.opened(name)
                except Exception as error:
                    raise AssertionError(f'{name} is not kept: {str(error)[:80]}') from error
                self.assertTrue(self.page.wait_for(SPEAKS, words), name)
        self.offline(look)

    def test_names_without_a_place(self):
        """Of files that are kept under the name of a version alone, those of this place go, and those of others stay."""
        self.put('new')
        self.opened()
        self.page.wait_for('''
            for (const [name, place] of [['gbkeep-0000000000000001', './'], ['gbkeep-0000000000000002', '../other/'], ['gbkeep-0000000000000003', './deeper/'], ['mine', './']]) {
              await (await caches.open(name)).put(place, new Response('kept'));
            }''')
        self.until_kept()
        # a new version is kept
        self.put('old')
        self.opened()
        self.browser.get('about:blank')
        self.page.until(lambda: self.opened() and self.names() == ['gbkeep ', 'gbkeep-0000000000000002', 'gbkeep-0000000000000003', 'mine'], 'others stay', 60)

    def names(self):
        found = self.page.wait_for('return (await caches.keys()).sort()')
        return ['gbkeep ' if name.startswith('gbkeep http') else name for name in found]


if __name__ == '__main__':
    sys.exit(main(__doc__, (Versions,)))
