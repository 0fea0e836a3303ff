"""The page of who may do what: its answers, and in a real browser."""
import json
import os
import shutil
import subprocess

from cerolimau.access_questions import Conf, Questions, all_files, by_rules, has_command, one_file

from .world import CONF, FRONT, Skip, expect, run, write_files

ACCESS_ROWS = FRONT.parent / "crates/access_rows/out/access_rows"
CHROMIUM = "/usr/bin/chromium"
ASK = "user ann\nuser cal\nref refs/heads/personal/ann/x\nref refs/tags/v1\nrepo site\nrepo u/ann/toy creator ann\nrole WRITERS cal\nrepo secrets\n"


class Browser:
    """A headless Chromium, which is told what to do by the pipe of its debugger."""

    def __init__(self, room):
        to_browser, from_us = os.pipe()
        to_us, from_browser = os.pipe()
        words = [CHROMIUM, "--headless", "--no-sandbox", "--disable-gpu", "--remote-debugging-pipe", "--user-data-dir=%s" % (room / "profile"), "about:blank"]
        script = 'exec 3<&%d 4>&%d; exec "$@"' % (to_browser, from_browser)
        self._process = subprocess.Popen(["bash", "-c", script, "-", *words], pass_fds=[to_browser, from_browser], stderr=subprocess.DEVNULL)
        self._out, self._in = os.fdopen(from_us, "wb", buffering=0), os.fdopen(to_us, "rb", buffering=0)
        os.close(to_browser)
        os.close(from_browser)
        self._number, self._rest, self._session = 0, b"", None
        page = next(it for it in self.call("Target.getTargets")["targetInfos"] if it["type"] == "page")
        self._session = self.call("Target.attachToTarget", targetId=page["targetId"], flatten=True)["sessionId"]

    def call(self, method, **params):
        self._number += 1
        message = {"id": self._number, "method": method, "params": params, **({"sessionId": self._session} if self._session else {})}
        self._out.write(json.dumps(message).encode() + b"\0")
        while True:
            while b"\0" not in self._rest:
                self._rest += self._in.read(1 << 16)
            text, _, self._rest = self._rest.partition(b"\0")
            answer = json.loads(text)
            if answer.get("id") == self._number:
                assert "error" not in answer, answer
                return answer["result"]

    def run(self, script):
        return self.call("Runtime.evaluate", expression=script, awaitPromise=True)["result"].get("value")

    def click(self, x, y):
        for kind in "mousePressed", "mouseReleased":
            self.call("Input.dispatchMouseEvent", type=kind, x=x, y=y, button="left", clickCount=1)

    def press(self, key):
        for kind in "keyDown", "keyUp":
            self.call("Input.dispatchKeyEvent", type=kind, key=key)

    def close(self):
        self._process.kill()
        self._process.wait()


def programs(here):
    if not ACCESS_ROWS.exists():
        raise Skip("no access_rows")
    return ["--program", here.program, "--server", here.host, "--rules", str(ACCESS_ROWS)]


def plain(conf, idle):
    """Those of rules that aren't of a pattern."""
    return [number for number in idle if conf.rules[int(number) - 1].repository in (*conf.repositories, "@all")]


def what_a_subconf_may_not_set(here):
    """Lines of a subconf that set nothing are told by check-conf before a push, and by the server behind it, as is a conf without the admin's rule."""
    programs(here)
    main = "repo gitolite-admin\n    RW+ = admin%s\nrepo testing\n    RW+ = @all\nsubconf web.conf\n"
    files = {"conf/web.conf": "repo web\n    RW = ann\nrepo other\n    R = ann\n"}
    said = "web.conf line 3: subconf web may not set access for other"
    where = here.folder()
    write_files(where, {"conf/gitolite.conf": main % "", **files})
    words = [str(FRONT / "check-conf"), "--rules", str(ACCESS_ROWS), str(where), "--admin"]
    expect(run([*words, "admin"]), said)
    expect(run([*words, "ann"]), "ann")
    options = "--rules", str(ACCESS_ROWS)
    clone = here.room / "gitolite-admin"
    was = (clone / "conf/gitolite.conf").read_text()
    try:
        expect(here.put_conf(main % "", files=files, options=options), said)
        expect(here.put_conf(main % " ann\n    - = admin", files=files, options=options), said)
    finally:
        here.git("admin", "rm", "-q", "conf/web.conf", cwd=clone)
        here.put_conf(was)


def answers_by_all_programs(here):
    """A conf has the same answers by both reports and by the rules, of one file and of several; and one with a fault is refused."""
    programs(here)
    if not has_command([here.program], "access") or not has_command([here.host, "--help"], "report"):
        raise Skip("the programs have no command access, or none report")
    conf = Conf("one", {"gitolite.conf": CONF.encode()}, str(ACCESS_ROWS))
    asked = Questions.read(ASK)
    found, idle = one_file(conf, asked, here.program)
    assert (found, idle) == all_files(conf, asked, here.host)
    assert (found, plain(conf, idle)) == by_rules(conf, asked)
    assert found[0, "cal", "refs/heads/personal/ann/x", "create"].word == "denied" and found[1, "cal", "write", ""].word == "allowed"
    conf = Conf("two", {"gitolite.conf": CONF.encode() + b'subconf "sub/web.conf"\n', "sub/web.conf": b"repo web\n RW = ann\n"}, str(ACCESS_ROWS))
    asked = Questions.read(ASK + "repo web\n")
    found, idle = all_files(conf, asked, here.host)
    assert (found, plain(conf, idle)) == by_rules(conf, asked) and found[3, "ann", "write", ""].word == "allowed"
    where = here.folder()
    write_files(where, {"conf/gitolite.conf": "repo gitolite-admin\n RW+ = admin\nsubconf \"web.conf\"\n", "conf/web.conf": "repo web\n RW = ann\nrepo other\n R = ann\n"})
    said = run([str(FRONT / "access-page"), *programs(here), str(where)])
    expect(said, "web.conf line 2", "subconf web may not set access for other")
    (where / "conf/gitolite.conf").write_text("repo x\n RX = ann\n")
    expect(run([str(FRONT / "access-page"), *programs(here), str(where)], status=1), "access-page: %s: gitolite.conf line 2: bad permission" % where.name)


def page_in_a_browser(here):
    """A cell is clicked and left by a key, and the rule that decides is told with its line."""
    if not os.path.exists(CHROMIUM):
        raise Skip("no chromium")
    where = here.folder()
    write_files(where, {"conf/gitolite.conf": CONF})
    (where / "page.html").write_text(run([str(FRONT / "access-page"), *programs(here), "--refs", "refs/heads/personal/ann/x", "--", str(where)]))
    browser = Browser(where)
    try:
        browser.call("Page.navigate", url="file://%s" % (where / "page.html"))
        find = "[...document.querySelectorAll('h2')].find(h => h.textContent == 'site').nextElementSibling.rows[%d].cells[%d].querySelector('button')"
        row = "[...document.querySelectorAll('tbody')[%d].rows].findIndex(r => r.cells[0].textContent == 'cal') + 2"
        while not browser.run("!!document.getElementById('rule')"):
            pass
        row = browser.run(row % 2)
        place = browser.run("(() => { const cell = %s; cell.scrollIntoView(); const at = cell.getBoundingClientRect(); return [at.x + 5, at.y + 5].join(' ') })()" % (
            find % (row, 3)))
        browser.click(*map(float, place.split()))
        expect(browser.run("document.getElementById('rule').textContent"), "cal: create refs/heads/personal/ann/x in site: denied by rule", "gitolite.conf line 18:\n- personal/ = @all")
        assert "- personal/ = @all" in browser.run("document.querySelector('pre .shown').textContent")
        browser.press("ArrowLeft")
        expect(browser.run("document.getElementById('rule').textContent"), "cal: write site: allowed by rule", "line 17:\nRW+ personal/USER/ = @staff cal")
        shown = browser.call("Page.captureScreenshot", format="png")["data"]
        assert len(shown) > 10_000
    finally:
        browser.close()


def what_a_conf_changes(here):
    """With two confs the page has what changes alone: first what is allowed then and wasn't."""
    where = here.folder()
    write_files(where, {"conf/gitolite.conf": CONF})
    here.git("ann", "init", cwd=where)
    here.commit(where, {})
    write_files(where, {"conf/gitolite.conf": CONF.replace("    - personal/ = @all\n", "").replace("RW master = ann", "R = ann")})
    said = run([str(FRONT / "access-page"), *programs(here), "HEAD:%s" % where, str(where), "--refs", "refs/heads/personal/ann/x"])
    expect(said, "<h2>Allowed now: 4</h2>", "<h2>Not allowed any more: ")
    assert said.index("Allowed now") < said.index("Not allowed any more")
    expect(said, "<td>site</td><td>cal</td><td>create refs/heads/personal/ann/x</td>", "<td>narrow</td><td>ann</td><td>write</td>")


TESTS = what_a_subconf_may_not_set, answers_by_all_programs, page_in_a_browser, what_a_conf_changes
