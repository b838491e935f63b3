"""The cases of checks/page_live: the tool as a WebAssembly module in the page, against the examples, the recordings and the tool.

 examples    The module's output and status on each example, in each mode, are those beside it; in a short buffer too.
 recordings  What page/live.js records of an example is its recording in page/recordings.js.
 replies     The page shows a script that it runs: each example, one with a bad line, an empty one, and one of 2,000 commands,
             whose picture is compared with what the tool prints.
 use         The button, the editor and the link, in one file and from a server; what can't be run is said; no error on the console.
"""
import base64
import functools
import http.server
import json
import re
import shutil
import subprocess
import sys
import threading
from pathlib import Path

import page
from browser import Browser
from page import Example, case, check_places, check_replies, churn, examples, room

LIVE, MODULE = Path(room.name, "live.html"), Path(room.name, "norphuen.wasm")
REPLIES = "[...document.querySelectorAll('[data-reply]')].map(it => it.textContent)"
SORTED = "(it => JSON.stringify(it, (_, one) => one && typeof one === 'object' && !Array.isArray(one) ? Object.fromEntries(Object.entries(one).sort()) : one))"


def make():
    """The module, and the page in one file with it."""
    done = subprocess.run(["tools/wasm_of", str(MODULE)], capture_output=True, text=True)
    if done.returncode:
        print(f"checks/page_live: no module: {done.stderr[-2000:]}", file=sys.stderr)
        return False
    done = subprocess.run([page.TOOL, "live", str(MODULE)], capture_output=True, text=True)
    case("heap_picture live ends with 0", done.returncode == 0 and not done.stderr, done.stderr)
    LIVE.write_text(done.stdout)
    print(f"checks/page_live: the module has {MODULE.stat().st_size:,} bytes, the page with it {LIVE.stat().st_size:,}", file=sys.stderr)
    return True


def check_examples(browser):
    for name in Path("examples/LIST").read_text().split():
        at = Path("examples", name)
        if at.with_suffix(".in").exists():
            given = at.with_suffix(".in").read_bytes()
            arguments, status = (at.with_suffix(".args").read_text().split("\n") + [""])[:2]
        else:
            given = at.with_suffix(".cf").read_bytes()
            arguments, status = ((re.findall(rf"^# {word}: (.*)$", given.decode(), re.M) or [""])[0] for word in ("arguments", "status"))
        for room_for in (1 << 20, 7):
            ended, data = browser.do(f"""(async () => {{ const {{ status, output }} = await NorphuenLive.run({json.dumps(arguments.split() or ["run"])},
              Uint8Array.from(atob("{base64.b64encode(given).decode()}"), c => c.charCodeAt(0)), {room_for});
              return [status, btoa(Array.from(output, it => String.fromCharCode(it)).join(''))]; }})()""")
            case(f"{name}: the output of the module, with room for {room_for}", base64.b64decode(data) == at.with_suffix(".out").read_bytes(), base64.b64decode(data)[-200:])
            case(f"{name}: the status of the module", ended == int(status or 0), ended)


def run_here(browser, script):
    """Types a script into the editor, and waits until the page shows it."""
    browser.do(f"edit({json.dumps(script)}, 0, [])")


def check_recordings(browser):
    for example in examples():
        same = browser.do(f"(async () => {{ const kept = await unpack(RECORDINGS.find(it => it[0] === '{example.name}')[2]); return {SORTED}(await NorphuenLive.record(kept.script)) === {SORTED}(kept); }})()")
        case(f"{example.name}: recorded here as in page/recordings.js", same)
        run_here(browser, example.text)
        check_replies(browser, example)


def check_scripts(browser):
    run_here(browser, "heap 2 512 1 8\nm 1 8\nfree 1\nm 2 8\n")
    case("a bad line", browser.do(REPLIES) == ["ok", "ok", "bad line 3"], browser.do(REPLIES))
    run_here(browser, "")
    case("an empty script", "The script is empty." in browser.do("document.body.innerText") and browser.do("length()") == 0)
    text = churn(2000)
    took, waits = browser.do(f"""(async () => {{ const began = performance.now(); let last = began, most = 0;
      const beat = setInterval(() => {{ const now = performance.now(); most = Math.max(most, now - last); last = now; }}, 1);
      await edit({json.dumps(text)}, 0, []); const ended = performance.now(); await new Promise(done => setTimeout(done, 50)); clearInterval(beat);
      return [ended - began, most]; }})()""")
    print(f"checks/page_live: 2,000 commands on four managers are recorded and shown in {took:.0f} ms; meanwhile the page waits {waits:.0f} ms at most", file=sys.stderr)
    example = Example("churn", text)
    case("2,000 commands are shown", browser.do("length()") == 2000 == browser.do("document.querySelectorAll('[data-reply]').length"))
    for manager in ("cf", "tlsf"):
        check_places(browser, example, manager)
    kept = browser.do("(async () => [await Promise.all([edit('heap 2 512 1 8\\n', 0, []), edit('heap 3 512 1 8\\nm 1 8\\n', 0, [])]), tape.script, document.getElementById('fault').textContent])()")
    case("of two scripts at once the later one is shown", kept == [[False, True], "heap 3 512 1 8\nm 1 8\n", ""], kept)
    for words, script in (("mode save has no picture", "# arguments: save\nheap 1 512 1 4\n"), ("status 2", "# arguments: run --manager none\nheap 1 512 1 4\n")):
        run_here(browser, script)
        case(f"what can't be run: {words}", words in browser.do("document.getElementById('fault').textContent"), browser.do("document.getElementById('fault').textContent"))


def check_use(browser, address):
    """The button, the editor and the link."""
    browser.open(f"{address}#example=move&at=3")
    browser.do("document.getElementById('change').onclick()")
    browser.do("(edit => { edit.value = 'heap 2 512 1 8\\nm 7 8\\nq 7\\n'; edit.dispatchEvent(new Event('input')); })(document.getElementById('edit'))")
    browser.until("tape.script === document.getElementById('edit').value")
    browser.do("show(1)")
    browser.until("location.hash.includes('&at=1&')")
    said = browser.do("[document.getElementById('edit').hidden, location.hash, document.getElementById('fault').textContent]")
    case(f"{address}: the editor shows what the module replies", browser.do(REPLIES) == ["ok", "ok", "at 0"] and said[0] is False and said[2] == "", (said, browser.do(REPLIES)))
    case(f"{address}: the link holds the script", said[1].startswith("#script="), said[1])
    browser.open(address + said[1])
    case(f"{address}: the link is opened", browser.do("[tape.script, at]") == ["heap 2 512 1 8\nm 7 8\nq 7\n", 1] and browser.do("document.body.dataset.ready") == "script", browser.do("[tape.script, at]"))
    browser.open(f"{address}#script=nothing")
    case(f"{address}: a link that holds no script", browser.do("document.body.dataset.ready") == "gaps")


class Server(http.server.SimpleHTTPRequestHandler):
    def log_message(self, *_):
        pass


def check_served(browser):
    """From a server with norphuen.wasm beside the page, and without."""
    folder = Path(room.name, "served")
    shutil.copytree("page", folder)
    shutil.copy(MODULE, folder)
    server = http.server.ThreadingHTTPServer(("127.0.0.1", 0), functools.partial(Server, directory=folder))
    threading.Thread(target=server.serve_forever, daemon=True).start()
    check_use(browser, f"http://127.0.0.1:{server.server_port}/index.html")
    server.shutdown()


def main():
    if not make():
        return 1
    browser = Browser()
    try:
        browser.open(LIVE.as_uri())
        check_examples(browser)
        check_recordings(browser)
        check_scripts(browser)
        check_use(browser, LIVE.as_uri())
        check_served(browser)
        case("no error on the console", not browser.errors, browser.errors[:2])
    finally:
        browser.close()
    if not page.failed:
        print(f"checks/page_live: {page.cases} cases", file=sys.stderr)
    return 1 if page.failed else 0


if __name__ == "__main__":
    sys.exit(main())
